MODULE M
VAR intnum i1;
VAR intnum i2;
TRAP t1
TPWrite "t1";
ENDTRAP
TRAP t2
TPWrite "t2";
ENDTRAP
PROC main()
CONNECT i1 WITH t1;
ISignalDI di1, 1, i1;
CONNECT i2 WITH t2;
ISignalDI di1, 0, i2;
MoveAbsJ [[3,0,0,0,0,0],[9E9,9E9,9E9,9E9,9E9,9E9]], v1000, fine, tool0;
ENDPROC
ENDMODULE
