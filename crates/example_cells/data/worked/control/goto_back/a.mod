MODULE M
VAR num n;
PROC main()
again:
Incr n;
IF n < 3 GOTO again;
TPWrite ""\Num:=n;
ENDPROC
ENDMODULE
