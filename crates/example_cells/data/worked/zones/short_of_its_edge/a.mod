MODULE M
VAR shapedata s;
VAR wztemporary z;
VAR wzstationary w;
PROC main()
WZLimJointDef\Inside, s, [[5,9E9,9E9,9E9,9E9,9E9],[9E9,9E9,9E9,9E9,9E9,9E9]], [[6,9E9,9E9,9E9,9E9,9E9],[9E9,9E9,9E9,9E9,9E9,9E9]];
WZLimSup\Temp, z, s;
MoveAbsJ [[4.999,0,0,0,0,0],[9E9,9E9,9E9,9E9,9E9,9E9]], v5000, fine, tool0;
ENDPROC
ENDMODULE
