MODULE M
VAR bool taken;
PROC main()
TPWrite ""\Bool:=TestAndSet(taken);
TPWrite ""\Bool:=TestAndSet(taken);
TPWrite ""\Bool:=taken;
ENDPROC
ENDMODULE
