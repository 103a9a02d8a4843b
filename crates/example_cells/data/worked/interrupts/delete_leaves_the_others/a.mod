MODULE M
VAR intnum i1;
VAR intnum i2;
TRAP t1
TPWrite "t1";
ENDTRAP
TRAP t2
TPWrite "t2";
ENDTRAP
PROC main()
CONNECT i1 WITH t1;
CONNECT i2 WITH t2;
ISignalDO do1, 1, i1;
ISignalDO do1, 1, i2;
IDisable;
Set do1;
Reset do1;
Set do1;
IDelete i1;
IEnable;
TPWrite "end";
ENDPROC
ENDMODULE
