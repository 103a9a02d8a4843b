MODULE M
VAR shapedata s;
VAR wztemporary z;
VAR wztemporary y;
PROC main()
WZLimJointDef\Inside, s, [[-1,9E9,9E9,9E9,9E9,9E9],[9E9,9E9,9E9,9E9,9E9,9E9]], [[1,9E9,9E9,9E9,9E9,9E9],[9E9,9E9,9E9,9E9,9E9,9E9]];
WZDOSet\Temp\Inside, z, s, do1, 1;
MoveAbsJ [[0,0,0,0,0,0],[9E9,9E9,9E9,9E9,9E9,9E9]], v2000, fine, tool0;
TPWrite "in="\Num:=do1;
WZFree z;
TPWrite "freed="\Num:=do1;
WZDOSet\Temp\Inside, y, s, do1, 1;
MoveAbsJ [[2,0,0,0,0,0],[9E9,9E9,9E9,9E9,9E9,9E9]], v2000, fine, tool0;
TPWrite "outside="\Num:=do1;
WZFree y;
TPWrite "freed="\Num:=do1;
ENDPROC
ENDMODULE
