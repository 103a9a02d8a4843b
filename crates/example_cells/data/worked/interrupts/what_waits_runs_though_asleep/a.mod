MODULE M
VAR intnum i1;
TRAP t1
TPWrite "t1";
ENDTRAP
PROC main()
CONNECT i1 WITH t1;
ISignalDO do1, 1, i1;
IDisable;
Set do1;
ISleep i1;
IEnable;
TPWrite "end";
ENDPROC
ENDMODULE
