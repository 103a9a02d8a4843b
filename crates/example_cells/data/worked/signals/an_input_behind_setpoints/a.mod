MODULE M
PROC main()
MoveAbsJ [[2,0,0,0,0,0],[9E9,9E9,9E9,9E9,9E9,9E9]], v1000, fine, tool0;
WaitDI di1, 1;
TPWrite "go";
ENDPROC
ENDMODULE
