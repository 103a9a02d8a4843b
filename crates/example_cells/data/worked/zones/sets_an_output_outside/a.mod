MODULE M
VAR shapedata s;
VAR wzstationary w;
PROC main()
WZLimJointDef\Outside, s, [[-1,9E9,9E9,9E9,9E9,9E9],[9E9,9E9,9E9,9E9,9E9,9E9]], [[1,9E9,9E9,9E9,9E9,9E9],[9E9,9E9,9E9,9E9,9E9,9E9]];
WZDOSet\Inside\Stat, w, s, do_lamp, 0;
TPWrite "at 0: "\Num:=do_lamp;
MoveAbsJ [[1,0,0,0,0,0],[9E9,9E9,9E9,9E9,9E9,9E9]], v1000, fine, tool0;
TPWrite "at 1: "\Num:=do_lamp;
MoveAbsJ [[2,0,0,0,0,0],[9E9,9E9,9E9,9E9,9E9,9E9]], v1000, fine, tool0;
TPWrite "at 2: "\Num:=do_lamp;
ENDPROC
ENDMODULE
