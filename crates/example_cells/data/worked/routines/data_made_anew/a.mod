MODULE M
PROC p()
VAR num n := 3;
VAR num a{2} := [4, 5];
n := n + 1;
a{1} := a{1} + 1;
TPWrite ""\Num:=n * 10 + a{1};
ENDPROC
PROC main()
p;
p;
ENDPROC
ENDMODULE
