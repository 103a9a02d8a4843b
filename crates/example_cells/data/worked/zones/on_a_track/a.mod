MODULE M
VAR shapedata s;
VAR wzstationary z;
CONST speeddata on_track := [600000,500,5000,1000];
PROC main()
WZLimJointDef\Inside, s, [[9E9,9E9,9E9,9E9,9E9,9E9],[1000,9E9,9E9,9E9,9E9,9E9]], [[9E9,9E9,9E9,9E9,9E9,9E9],[2000,9E9,9E9,9E9,9E9,9E9]];
WZLimSup\Stat, z, s;
! From 600 to 1200 the way touches the zone at 1000.
MoveAbsJ [[0,0,0,0,0,0],[3000,9E9,9E9,9E9,9E9,9E9]]\NoEOffs, on_track, fine, tool0;
ENDPROC
ENDMODULE
