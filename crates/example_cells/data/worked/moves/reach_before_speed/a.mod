MODULE M
VAR speeddata s := [0,0,0,0];
PROC main()
MoveAbsJ [[0,0,0,0,0,9E9],[9E9,9E9,9E9,9E9,9E9,9E9]], s, fine, tool0;
ENDPROC
ENDMODULE
