MODULE M
CONST speeddata at_once := [100000000,500,5000,1000];
PROC main()
MoveAbsJ [[0,0,0,0,0,0],[-100000,9E9,9E9,9E9,9E9,9E9]]\NoEOffs, at_once, fine, tool0;
MoveAbsJ [[0,0,0,0,0,0],[100000.001,9E9,9E9,9E9,9E9,9E9]]\NoEOffs, at_once, fine, tool0;
ENDPROC
ENDMODULE
