MODULE M
PROC main()
! Axis 1 turns by a degree, the track goes three: three setpoints.
MoveAbsJ [[1,0,0,0,0,0],[3,9E9,9E9,9E9,9E9,9E9]]\NoEOffs, v1000, fine, tool0;
ENDPROC
ENDMODULE
