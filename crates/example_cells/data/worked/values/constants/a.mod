MODULE M
CONST num two := 1 + 1;
CONST num many{two} := [5, two * 3];
CONST string head := "x" + "y";
PROC main()
TPWrite ""\Num:=many{2} + two;
TPWrite head;
ENDPROC
ENDMODULE
