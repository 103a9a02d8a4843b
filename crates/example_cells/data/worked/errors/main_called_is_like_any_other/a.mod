MODULE M
VAR num n;
PROC main()
Incr n;
IF n = 3 RAISE 9;
main;
TPWrite "behind"\Num:=ERRNO;
ERROR
IF n = 3 THEN
Incr n;
RAISE;
ENDIF
TRYNEXT;
ENDPROC
ENDMODULE
