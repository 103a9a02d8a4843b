MODULE M
VAR intnum i1;
TRAP t1
RAISE 7;
ENDTRAP
PROC main()
CONNECT i1 WITH t1;
ISignalDI di1, 1, i1;
MoveAbsJ [[3,0,0,0,0,0],[9E9,9E9,9E9,9E9,9E9,9E9]], v1000, fine, tool0;
TPWrite "never";
ERROR
TPWrite "never";
TRYNEXT;
ENDPROC
ENDMODULE
