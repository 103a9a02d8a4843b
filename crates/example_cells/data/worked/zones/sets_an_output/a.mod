MODULE M
VAR shapedata s;
VAR wztemporary z;
PROC main()
WZLimJointDef\Inside, s, [[-1,9E9,9E9,9E9,9E9,9E9],[9E9,9E9,9E9,9E9,9E9,9E9]], [[1,9E9,9E9,9E9,9E9,9E9],[9E9,9E9,9E9,9E9,9E9,9E9]];
WZDOSet\Temp\Inside, z, s, do_lamp, 1;
TPWrite "in="\Num:=do_lamp;
MoveAbsJ [[2,0,0,0,0,0],[9E9,9E9,9E9,9E9,9E9,9E9]], v1000, fine, tool0;
TPWrite "out="\Num:=do_lamp;
MoveAbsJ [[1,0,0,0,0,0],[9E9,9E9,9E9,9E9,9E9,9E9]], v1000, fine, tool0;
TPWrite "edge="\Num:=do_lamp;
ENDPROC
ENDMODULE
