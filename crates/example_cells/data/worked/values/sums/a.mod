MODULE M
PROC main()
TPWrite ""\Num:=1 + 2;
TPWrite ""\Num:=10 - 4 - 3;
TPWrite ""\Num:=2 + 3 * 4;
TPWrite ""\Num:=(2 + 3) * 4;
TPWrite ""\Num:=-2 + 5;
TPWrite ""\Num:=-2 * 5;
ENDPROC
ENDMODULE
