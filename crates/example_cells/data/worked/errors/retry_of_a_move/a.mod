MODULE M
VAR num z;
PROC main()
MoveAbsJ [[1 / z,0,0,0,0,0],[9E9,9E9,9E9,9E9,9E9,9E9]], v1000, fine, tool0;
ERROR
z := 1;
RETRY;
ENDPROC
ENDMODULE
