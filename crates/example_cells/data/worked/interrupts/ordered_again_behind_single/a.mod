MODULE M
VAR intnum i1;
TRAP t1
TPWrite "t1";
ENDTRAP
PROC main()
CONNECT i1 WITH t1;
ISignalDO\Single, do1, 1, i1;
Set do1;
Reset do1;
ISignalDO\Single, do1, 1, i1;
Set do1;
Reset do1;
Set do1;
TPWrite "end";
ENDPROC
ENDMODULE
