MODULE M
PROC main()
TPWrite "b";
Set ready;
WaitDO ready, 0;
TPWrite "end";
ENDPROC
ENDMODULE
