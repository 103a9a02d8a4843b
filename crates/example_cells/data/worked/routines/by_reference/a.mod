MODULE M
VAR num x := 1;
PERS num k := 10;
VAR num a{3};
VAR robjoint r;
PROC p(INOUT num n)
n := n + 1;
ENDPROC
PROC main()
p x;
p k;
p a{2};
p r.rax_3;
p x;
TPWrite ""\Num:=x;
TPWrite ""\Num:=k;
TPWrite ""\Num:=a{2};
TPWrite ""\Num:=r.rax_3;
ENDPROC
ENDMODULE
