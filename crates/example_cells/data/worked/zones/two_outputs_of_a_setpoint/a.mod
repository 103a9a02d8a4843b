MODULE M
VAR shapedata s;
VAR wztemporary z{2};
VAR intnum i;
VAR intnum k;
PROC main()
WZLimJointDef\Inside, s, [[-1,9E9,9E9,9E9,9E9,9E9],[9E9,9E9,9E9,9E9,9E9,9E9]], [[1,9E9,9E9,9E9,9E9,9E9],[9E9,9E9,9E9,9E9,9E9,9E9]];
WZDOSet\Temp\Inside, z{1}, s, do_left, 1;
WZLimJointDef\Inside, s, [[2,9E9,9E9,9E9,9E9,9E9],[9E9,9E9,9E9,9E9,9E9,9E9]], [[4,9E9,9E9,9E9,9E9,9E9],[9E9,9E9,9E9,9E9,9E9,9E9]];
WZDOSet\Temp\Inside, z{2}, s, do_right, 1;
CONNECT k WITH right;
CONNECT i WITH left;
ISignalDO do_left, 0, i;
ISignalDO do_right, 1, k;
MoveAbsJ [[6,0,0,0,0,0],[9E9,9E9,9E9,9E9,9E9,9E9]], [2000,500,5000,1000], fine, tool0;
ENDPROC
TRAP left
TPWrite "left";
ENDTRAP
TRAP right
TPWrite "right";
ENDTRAP
ENDMODULE
