MODULE M
VAR num n;
PROC q()
Incr n;
TPWrite "q"\Num:=n;
IF n < 3 RAISE 5;
ENDPROC
PROC main()
q;
TPWrite "end";
ERROR
IF ERRNO = 5 RETRY;
TRYNEXT;
ENDPROC
ENDMODULE
