MODULE Back
  PERS num wanted := 0;
  PERS num done := 0;
  PERS bool finished := FALSE;
  VAR num seen := 0;

  PROC main()
    WHILE NOT finished DO
      WaitUntil wanted <> seen OR finished;
      IF wanted <> seen THEN
        seen := wanted;
        TPWrite "wanted "\Num:=seen;
        done := seen;
      ENDIF
    ENDWHILE
  ENDPROC
ENDMODULE
