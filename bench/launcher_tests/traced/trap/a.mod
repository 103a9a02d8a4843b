MODULE M
VAR intnum i1;
TRAP t1
TPWrite "t1";
ENDTRAP
PROC main()
CONNECT i1 WITH t1;
ISignalDI di1, 1, i1;
MoveAbsJ [[2,0,0,0,0,0],[9E9,9E9,9E9,9E9,9E9,9E9]], v1000, fine, tool0;
TPWrite "end";
ENDPROC
ENDMODULE
