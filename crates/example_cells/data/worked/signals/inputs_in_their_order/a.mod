MODULE M
PROC main()
WaitDI di1, 1;
TPWrite "one";
WaitDI di2, 1;
TPWrite "two";
ENDPROC
ENDMODULE
