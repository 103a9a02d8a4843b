MODULE M
VAR shapedata s;
VAR wztemporary z;
VAR wzstationary w;
PROC main()
WZLimJointDef\Inside, s, [[2,2,9E9,9E9,9E9,9E9],[9E9,9E9,9E9,9E9,9E9,9E9]], [[3,3,9E9,9E9,9E9,9E9],[9E9,9E9,9E9,9E9,9E9,9E9]];
WZLimSup\Temp, z, s;
MoveAbsJ [[5,5,0,0,0,0],[9E9,9E9,9E9,9E9,9E9,9E9]], v5000, fine, tool0;
ENDPROC
ENDMODULE
