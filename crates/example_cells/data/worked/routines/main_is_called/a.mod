MODULE M
VAR num n;
PROC main()
Incr n;
TPWrite ""\Num:=n;
IF n < 3 main;
TPWrite "back";
ENDPROC
ENDMODULE
