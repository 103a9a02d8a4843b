MODULE M
VAR speeddata s := [2000,0,0,0];
PROC main()
MoveAbsJ [[2,-1,0,0,0,0],[9E9,9E9,9E9,9E9,9E9,9E9]], s, fine, tool0;
MoveAbsJ [[0,0,0,0,0,3],[9E9,9E9,9E9,9E9,9E9,9E9]], s, fine, tool0;
ENDPROC
ENDMODULE
