MODULE M
VAR num x := 1;
PROC p(num n)
n := n + 1;
TPWrite ""\Num:=n;
ENDPROC
PROC main()
p x;
p x + 5;
TPWrite ""\Num:=x;
ENDPROC
ENDMODULE
