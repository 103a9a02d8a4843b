MODULE M
VAR intnum i1;
TRAP t1
MoveAbsJ [[1,0,0,0,0,0],[9E9,9E9,9E9,9E9,9E9,9E9]], v1000, fine, tool0;
ENDTRAP
PROC main()
CONNECT i1 WITH t1;
ISignalDO do1, 1, i1;
Set do1;
TPWrite "never";
ENDPROC
ENDMODULE
