MODULE Line
  VAR num parts := 0;

  PROC main()
    WaitUntil di_part = 1 OR di_stop = 1;
    WHILE di_stop = 0 DO
      Incr parts;
      Set do_taken;
      WaitDI di_part, 0;
      Reset do_taken;
      WaitUntil di_part = 1 OR di_stop = 1;
    ENDWHILE
    TPWrite "parts "\Num:=parts;
  ENDPROC
ENDMODULE
