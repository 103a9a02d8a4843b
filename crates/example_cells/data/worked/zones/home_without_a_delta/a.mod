MODULE M
! A delta of 9E9 leaves its axis without a bound, whatever the middle is. Here no axis has one, so there is no shape: ZoneShape.
! If such a delta were ignored, each of the six would be bounded by 0 - 9E9 below, and the shape would be defined.
VAR shapedata s;
PROC main()
WZHomeJointDef\Inside, s, [[0,0,0,0,0,0],[9E9,9E9,9E9,9E9,9E9,9E9]], [[9E9,9E9,9E9,9E9,9E9,9E9],[9E9,9E9,9E9,9E9,9E9,9E9]];
TPWrite "never";
ENDPROC
ENDMODULE
