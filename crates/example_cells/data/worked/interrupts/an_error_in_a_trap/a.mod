MODULE M
VAR intnum i1;
TRAP t1
RAISE 7;
ENDTRAP
PROC main()
CONNECT i1 WITH t1;
ISignalDO do1, 1, i1;
Set do1;
TPWrite "never";
ERROR
TPWrite "never";
TRYNEXT;
ENDPROC
ENDMODULE
