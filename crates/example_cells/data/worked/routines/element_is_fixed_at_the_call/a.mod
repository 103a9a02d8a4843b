MODULE M
VAR num a{3} := [1, 2, 3];
VAR num i := 2;
PROC p(INOUT num n)
i := 3;
n := 20;
ENDPROC
PROC main()
p a{i};
TPWrite ""\Num:=a{1};
TPWrite ""\Num:=a{2};
TPWrite ""\Num:=a{3};
ENDPROC
ENDMODULE
