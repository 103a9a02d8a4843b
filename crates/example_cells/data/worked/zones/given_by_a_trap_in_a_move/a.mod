MODULE M
VAR shapedata s;
VAR wzstationary z;
VAR intnum i1;
TRAP t1
WZLimSup\Stat, z, s;
ENDTRAP
PROC main()
WZLimJointDef\Inside, s, [[2.5,9E9,9E9,9E9,9E9,9E9],[9E9,9E9,9E9,9E9,9E9,9E9]], [[3,9E9,9E9,9E9,9E9,9E9],[9E9,9E9,9E9,9E9,9E9,9E9]];
CONNECT i1 WITH t1;
ISignalDI di1, 1, i1;
! The input comes after the setpoint at 1, so the zone is there for the way from 2 to 3.
MoveAbsJ [[4,0,0,0,0,0],[9E9,9E9,9E9,9E9,9E9,9E9]], v1000, fine, tool0;
ENDPROC
ENDMODULE
