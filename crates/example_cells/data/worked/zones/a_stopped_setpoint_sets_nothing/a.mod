MODULE M
VAR shapedata s;
VAR wztemporary y{2};
PROC main()
WZLimJointDef\Inside, s, [[2,9E9,9E9,9E9,9E9,9E9],[9E9,9E9,9E9,9E9,9E9,9E9]], [[3,9E9,9E9,9E9,9E9,9E9],[9E9,9E9,9E9,9E9,9E9,9E9]];
WZLimSup\Temp, y{1}, s;
WZDOSet\Temp\Inside, y{2}, s, do_lamp, 1;
MoveAbsJ [[3,0,0,0,0,0],[9E9,9E9,9E9,9E9,9E9,9E9]], v1000, fine, tool0;
ENDPROC
ENDMODULE
