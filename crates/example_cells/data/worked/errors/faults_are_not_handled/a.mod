MODULE M
VAR num a{2};
PROC main()
a{3} := 1;
ERROR
TPWrite "never";
TRYNEXT;
ENDPROC
ENDMODULE
