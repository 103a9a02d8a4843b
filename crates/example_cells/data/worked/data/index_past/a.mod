MODULE M
VAR num a{3};
PROC main()
a{3} := 1;
a{4} := 1;
ENDPROC
ENDMODULE
