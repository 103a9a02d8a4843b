MODULE M
VAR shapedata s;
VAR wztemporary z;
PROC main()
WZLimJointDef\Inside, s, [[-1,9E9,9E9,9E9,9E9,9E9],[9E9,9E9,9E9,9E9,9E9,9E9]], [[1,9E9,9E9,9E9,9E9,9E9],[9E9,9E9,9E9,9E9,9E9,9E9]];
WZDOSet\Temp\Inside, z, s, do_lamp, 1;
WZDisable z;
MoveAbsJ [[2,0,0,0,0,0],[9E9,9E9,9E9,9E9,9E9,9E9]], v1000, fine, tool0;
TPWrite "off="\Num:=do_lamp;
WZEnable z;
TPWrite "on="\Num:=do_lamp;
WZFree z;
Set do_lamp;
TPWrite "freed="\Num:=do_lamp;
ENDPROC
ENDMODULE
