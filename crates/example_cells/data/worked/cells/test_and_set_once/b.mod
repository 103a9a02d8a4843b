MODULE M
PERS bool taken := FALSE;
PROC main()
TPWrite ""\Bool:=TestAndSet(taken);
ENDPROC
ENDMODULE
