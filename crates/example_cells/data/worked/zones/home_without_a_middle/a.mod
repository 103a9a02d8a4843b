MODULE M
VAR shapedata s;
VAR wztemporary z;
PROC main()
WZHomeJointDef\Inside, s, [[3,9E9,0,9E9,9E9,9E9],[9E9,9E9,9E9,9E9,9E9,9E9]], [[1,5,9E9,9E9,9E9,9E9],[1,9E9,9E9,9E9,9E9,9E9]];
WZLimSup\Temp, z, s;
MoveAbsJ [[3,0,0,0,0,0],[9E9,9E9,9E9,9E9,9E9,9E9]], v1000, fine, tool0;
ENDPROC
ENDMODULE
