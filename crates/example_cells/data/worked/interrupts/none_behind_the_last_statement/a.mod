MODULE M
VAR intnum i;
TRAP t
TPWrite "never";
ENDTRAP
PROC main()
CONNECT i WITH t;
ISignalDO do_lamp, 1, i;
Set do_lamp;
ENDPROC
ENDMODULE
