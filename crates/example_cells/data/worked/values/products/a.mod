MODULE M
PROC main()
TPWrite ""\Num:=0.05 * 0.05;
TPWrite ""\Num:=-0.05 * 0.05;
TPWrite ""\Num:=1.5 * 1.5;
TPWrite ""\Num:=0.001 * 0.4;
TPWrite ""\Num:=0.001 * 0.5;
ENDPROC
ENDMODULE
