MODULE M
PERS num k := 0;
PROC main()
WaitUntil k = 2;
TPWrite "woken";
ENDPROC
ENDMODULE
