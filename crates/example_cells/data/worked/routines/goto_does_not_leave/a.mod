MODULE M
PROC p()
VAR num n;
again:
Incr n;
IF n < 2 GOTO again;
TPWrite ""\Num:=n;
ENDPROC
PROC main()
p;
again:
p;
ENDPROC
ENDMODULE
