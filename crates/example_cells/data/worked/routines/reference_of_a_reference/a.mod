MODULE M
VAR num x := 1;
PROC q(INOUT num n)
n := n * 2;
ENDPROC
PROC p(INOUT num m)
q m;
m := m + 1;
q m;
ENDPROC
PROC main()
p x;
TPWrite ""\Num:=x;
ENDPROC
ENDMODULE
