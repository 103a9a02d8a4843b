MODULE Feeder
  CONST num no_part := 41;
  VAR num tries := 0;

  ! A routine of its own, so that RETRY waits again and does nothing else.
  PROC wait_for_part()
    Set do_timer;
    WaitUntil di_part = 1 OR di_time_up = 1;
    Reset do_timer;
    IF di_part = 0 RAISE no_part;
  ENDPROC

  PROC main()
    wait_for_part;
    TPWrite "part taken";
  ERROR
    IF ERRNO = no_part AND tries < 2 THEN
      Incr tries;
      TPWrite "no part, try "\Num:=tries;
      RETRY;
    ENDIF
  ENDPROC
ENDMODULE
