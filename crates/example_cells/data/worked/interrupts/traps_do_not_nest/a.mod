MODULE M
VAR intnum i1;
VAR intnum i2;
TRAP t1
TPWrite "begins";
Set do2;
TPWrite "ends";
ENDTRAP
TRAP t2
TPWrite "t2";
ENDTRAP
PROC main()
CONNECT i1 WITH t1;
ISignalDO do1, 1, i1;
CONNECT i2 WITH t2;
ISignalDO do2, 1, i2;
Set do1;
TPWrite "end";
ENDPROC
ENDMODULE
