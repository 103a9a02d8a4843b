MODULE M
VAR shapedata s;
PROC main()
! The external axis has a middle, but its delta is 9E9: it has no bound, and axis 1 alone has, from 4 to 6.
! If such a delta were ignored, the external axis would be bounded by 0 - 9E9 below, and the fault ExtAxis would come here.
WZHomeJointDef\Inside, s, [[5,9E9,9E9,9E9,9E9,9E9],[0,9E9,9E9,9E9,9E9,9E9]], [[1,9E9,9E9,9E9,9E9,9E9],[9E9,9E9,9E9,9E9,9E9,9E9]];
TPWrite "defined";
! With a delta of 1 it is bounded by -1 and 1, and an arm has no such axis: ExtAxis.
WZHomeJointDef\Inside, s, [[5,9E9,9E9,9E9,9E9,9E9],[0,9E9,9E9,9E9,9E9,9E9]], [[1,9E9,9E9,9E9,9E9,9E9],[1,9E9,9E9,9E9,9E9,9E9]];
TPWrite "never";
ENDPROC
ENDMODULE
