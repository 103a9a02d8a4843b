MODULE M
CONST speeddata three := [3000,500,5000,1000];
PROC main()
MoveAbsJ [[1,0,0,0,0,0],[1,2,3,4,5,6]]\NoEOffs, three, fine, tool0;
ENDPROC
ENDMODULE
