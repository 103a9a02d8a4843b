MODULE M
PERS num k := 0;
PROC main()
WaitUntil k = 1;
ENDPROC
ENDMODULE
