MODULE M
VAR shapedata s;
VAR wztemporary z;
VAR wzstationary w;
PROC main()
WZLimJointDef\Inside, s, [[5,9E9,9E9,9E9,9E9,9E9],[0,9E9,9E9,9E9,9E9,9E9]], [[6,9E9,9E9,9E9,9E9,9E9],[9E9,9E9,9E9,9E9,9E9,9E9]];
ENDPROC
ENDMODULE
