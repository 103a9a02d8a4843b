MODULE M
VAR intnum i;
TRAP t
IDisable;
TPWrite "trap";
ENDTRAP
PROC main()
CONNECT i WITH t;
ISignalDO do1, 1, i;
Set do1;
Reset do1;
Set do1;
TPWrite "quiet";
IEnable;
TPWrite "end";
ENDPROC
ENDMODULE
