MODULE Front
  PERS num wanted := 0;
  PERS num done := 0;
  PERS bool finished := FALSE;

  PROC main()
    wanted := 1;
    WaitUntil done = 1;
    wanted := 2;
    WaitUntil done = 2;
    finished := TRUE;
  ENDPROC
ENDMODULE
