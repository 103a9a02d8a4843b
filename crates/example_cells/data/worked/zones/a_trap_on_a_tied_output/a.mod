MODULE M
VAR shapedata s;
VAR wztemporary z;
VAR intnum i;
PROC main()
WZLimJointDef\Inside, s, [[2,9E9,9E9,9E9,9E9,9E9],[9E9,9E9,9E9,9E9,9E9,9E9]], [[3,9E9,9E9,9E9,9E9,9E9],[9E9,9E9,9E9,9E9,9E9,9E9]];
WZDOSet\Temp\Inside, z, s, do_lamp, 1;
CONNECT i WITH t;
ISignalDO do_lamp, 1, i;
MoveAbsJ [[4,0,0,0,0,0],[9E9,9E9,9E9,9E9,9E9,9E9]], v1000, fine, tool0;
ENDPROC
TRAP t
TPWrite "in";
ENDTRAP
ENDMODULE
