MODULE M
PROC p(num n)
VAR num m;
m := n;
IF n > 1 p n - 1;
TPWrite ""\Num:=m;
ENDPROC
PROC main()
p 3;
ENDPROC
ENDMODULE
