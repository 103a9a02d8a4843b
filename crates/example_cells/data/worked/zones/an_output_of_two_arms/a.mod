MODULE M
VAR shapedata s;
VAR wztemporary z;
PROC main()
WZLimJointDef\Inside, s, [[5,9E9,9E9,9E9,9E9,9E9],[9E9,9E9,9E9,9E9,9E9,9E9]], [[6,9E9,9E9,9E9,9E9,9E9],[9E9,9E9,9E9,9E9,9E9,9E9]];
WZDOSet\Temp\Inside, z, s, do_lamp, 1;
WaitTime 0;
ENDPROC
ENDMODULE
