MODULE M
PROC main()
GOTO skip;
TPWrite "never";
skip:
TPWrite "here";
ENDPROC
ENDMODULE
