MODULE M
VAR num n := 5;
PROC main()
Incr n;
Incr n;
Decr n;
Add n, 2.5;
TPWrite ""\Num:=n;
Clear n;
TPWrite ""\Num:=n;
Add n, -1;
TPWrite ""\Num:=n;
ENDPROC
ENDMODULE
