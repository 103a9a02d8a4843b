MODULE M
VAR speeddata s := [0,500,5000,1000];
PROC main()
MoveAbsJ [[1,0,0,0,0,0],[9E9,9E9,9E9,9E9,9E9,9E9]], s, fine, tool0;
ENDPROC
ENDMODULE
