MODULE M
PROC main()
TPWrite ""\Num:=1 / 3;
TPWrite ""\Num:=2 / 3;
TPWrite ""\Num:=-2 / 3;
TPWrite ""\Num:=1 / 8;
TPWrite ""\Num:=1 / 16;
TPWrite ""\Num:=-1 / 16;
ENDPROC
ENDMODULE
