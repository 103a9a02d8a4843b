MODULE M
PROC main()
TPWrite ""\Bool:=TestDI(di1);
TPWrite ""\Bool:=TestDI(di2);
TPWrite ""\Num:=do1;
ENDPROC
ENDMODULE
