MODULE M
PROC q(VAR num n)
n := n + 1;
ENDPROC
PROC p()
VAR num n := 5;
VAR num a{2};
q n;
q a{2};
TPWrite ""\Num:=n;
TPWrite ""\Num:=a{2};
ENDPROC
PROC main()
p;
p;
ENDPROC
ENDMODULE
