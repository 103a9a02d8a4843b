MODULE M
VAR shapedata s;
VAR wztemporary z;
VAR wzstationary w;
PROC main()
WZLimJointDef\Inside, s, [[2,3,9E9,9E9,9E9,9E9],[9E9,9E9,9E9,9E9,9E9,9E9]], [[3,4,9E9,9E9,9E9,9E9],[9E9,9E9,9E9,9E9,9E9,9E9]];
WZLimSup\Temp, z, s;
MoveAbsJ [[4,2,0,0,0,0],[9E9,9E9,9E9,9E9,9E9,9E9]], v4000, fine, tool0;
ENDPROC
ENDMODULE
