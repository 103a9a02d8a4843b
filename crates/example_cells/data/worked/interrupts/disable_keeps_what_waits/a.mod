MODULE M
VAR intnum i;
TRAP t
TPWrite "trap";
ENDTRAP
PROC main()
CONNECT i WITH t;
ISignalDI di1, 1, i;
IDisable;
TPWrite "off";
IEnable;
TPWrite "on";
ENDPROC
ENDMODULE
