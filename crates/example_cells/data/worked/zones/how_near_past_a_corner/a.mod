MODULE M
PROC main()
MoveAbsJ [[20,10,0,0,0,0],[9E9,9E9,9E9,9E9,9E9,9E9]]\NoEOffs, v7000, fine, tool0;
MoveAbsJ [[0,0,0,0,0,0],[9E9,9E9,9E9,9E9,9E9,9E9]]\NoEOffs, v7000, fine, tool0;
ENDPROC
ENDMODULE
