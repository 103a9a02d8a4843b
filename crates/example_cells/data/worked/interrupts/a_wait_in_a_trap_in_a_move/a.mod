MODULE M
VAR intnum i1;
TRAP t1
Set do1;
WaitDI di1, 0;
TPWrite "on";
ENDTRAP
PROC main()
CONNECT i1 WITH t1;
ISignalDI di1, 1, i1;
! The arm stands at 1 until B has written its text and set do2, since only then does di1 become 0.
MoveAbsJ [[3,0,0,0,0,0],[9E9,9E9,9E9,9E9,9E9,9E9]], v1000, fine, tool0;
ENDPROC
ENDMODULE
