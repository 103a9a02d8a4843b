MODULE M
PROC main()
Set do1;
TPWrite ""\Num:=DOutput(do1);
TPWrite ""\Num:=do1 + 1;
Reset do1;
TPWrite ""\Num:=do1;
SetDO do1, high;
TPWrite ""\Bool:=do1 = 1;
ENDPROC
ENDMODULE
