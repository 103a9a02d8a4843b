MODULE M
PROC main()
MoveAbsJ [[1,0,0,0,0,0],[5,5,5,5,5,5]], v1000, fine, tool0;
ENDPROC
ENDMODULE
