MODULE M
VAR intnum i;
TRAP t
TPWrite "trap";
EXIT;
ENDTRAP
PROC main()
CONNECT i WITH t;
ISignalDO do1, 1, i;
Set do1;
TPWrite "never";
ENDPROC
ENDMODULE
