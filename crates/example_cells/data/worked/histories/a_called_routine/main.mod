MODULE Start
  PROC main()
    VAR num got := 0;
    got := fetched(1);
    TPWrite "got "\Num:=got;
  ERROR
    IF ERRNO = 41 THEN
      tries := tries + 1;
      RETRY;
    ENDIF
  ENDPROC
ENDMODULE
