MODULE M
PROC main()
WaitDO do1, 1;
TPWrite "b";
Set do2;
ENDPROC
ENDMODULE
