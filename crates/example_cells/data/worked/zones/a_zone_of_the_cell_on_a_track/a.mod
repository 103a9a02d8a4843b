MODULE M
CONST speeddata on_track := [600000,500,5000,1000];
PROC main()
! Axis 1 is out of the zone on the first way, and in it on the way back.
MoveAbsJ [[5,0,0,0,0,0],[0,9E9,9E9,9E9,9E9,9E9]]\NoEOffs, on_track, fine, tool0;
MoveAbsJ [[5,0,0,0,0,0],[2400,9E9,9E9,9E9,9E9,9E9]]\NoEOffs, on_track, fine, tool0;
MoveAbsJ [[0,0,0,0,0,0],[2400,9E9,9E9,9E9,9E9,9E9]]\NoEOffs, on_track, fine, tool0;
MoveAbsJ [[0,0,0,0,0,0],[0,9E9,9E9,9E9,9E9,9E9]]\NoEOffs, on_track, fine, tool0;
ENDPROC
ENDMODULE
