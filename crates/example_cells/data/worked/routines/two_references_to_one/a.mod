MODULE M
VAR num x := 1;
PROC p(INOUT num a, INOUT num b, num c)
a := 5;
TPWrite ""\Num:=b;
b := 7;
TPWrite ""\Num:=a;
TPWrite ""\Num:=c;
ENDPROC
PROC main()
p x, x, x;
TPWrite ""\Num:=x;
ENDPROC
ENDMODULE
