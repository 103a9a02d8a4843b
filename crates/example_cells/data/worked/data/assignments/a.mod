MODULE M
VAR num a := 1;
VAR num b := 2;
PROC main()
a := b;
b := a + b;
TPWrite ""\Num:=a;
TPWrite ""\Num:=b;
ENDPROC
ENDMODULE
