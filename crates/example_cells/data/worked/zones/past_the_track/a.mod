MODULE M
VAR shapedata s;
PROC main()
WZLimJointDef\Inside, s, [[9E9,9E9,9E9,9E9,9E9,9E9],[1000,9E9,9E9,9E9,9E9,9E9]], [[9E9,9E9,9E9,9E9,9E9,9E9],[2000,9E9,9E9,9E9,9E9,9E9]];
TPWrite "defined";
! The arm has no eighth axis.
WZLimJointDef\Inside, s, [[9E9,9E9,9E9,9E9,9E9,9E9],[9E9,1,9E9,9E9,9E9,9E9]], [[9E9,9E9,9E9,9E9,9E9,9E9],[9E9,2,9E9,9E9,9E9,9E9]];
TPWrite "never";
ENDPROC
ENDMODULE
