MODULE Work
  PERS bool finished := FALSE;

  PROC main()
    WaitDI di_end, 1;
    finished := TRUE;
  ENDPROC
ENDMODULE
