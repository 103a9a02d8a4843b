MODULE M
VAR num x := -7;
VAR num y := -2;
PROC main()
TPWrite ""\Num:=7 DIV 2;
TPWrite ""\Num:=x DIV 2;
TPWrite ""\Num:=7 DIV y;
TPWrite ""\Num:=x DIV y;
TPWrite ""\Num:=7.5 DIV 2;
TPWrite ""\Num:=0.5 DIV 0.2;
ENDPROC
ENDMODULE
