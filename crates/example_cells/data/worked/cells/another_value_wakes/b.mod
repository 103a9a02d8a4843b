MODULE M
PERS num k := 0;
PROC main()
k := 1;
k := 2;
k := 3;
k := 2;
ENDPROC
ENDMODULE
