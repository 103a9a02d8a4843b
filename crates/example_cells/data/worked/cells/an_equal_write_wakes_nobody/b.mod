MODULE M
PERS num k := 0;
PROC main()
k := 0;
TPWrite "written";
ENDPROC
ENDMODULE
