MODULE M
VAR shapedata s;
VAR wztemporary z;
PROC main()
WZLimJointDef\Inside, s, [[-1,9E9,9E9,9E9,9E9,9E9],[9E9,9E9,9E9,9E9,9E9,9E9]], [[1,9E9,9E9,9E9,9E9,9E9],[9E9,9E9,9E9,9E9,9E9,9E9]];
WZDOSet\Temp\Inside, z, s, do_lamp, 1;
ENDPROC
ENDMODULE
