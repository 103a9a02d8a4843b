MODULE M
VAR speeddata s := [0.5,500,5000,1000];
PROC main()
MoveAbsJ [[0,0,0,0,0,0.002],[9E9,9E9,9E9,9E9,9E9,9E9]], s, fine, tool0;
ENDPROC
ENDMODULE
