MODULE M
PROC main()
WaitDO ready, 1;
TPWrite "a";
Reset ready;
ENDPROC
ENDMODULE
