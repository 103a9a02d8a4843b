MODULE M
PROC main()
Set do1;
WaitDI di1, 1;
TPWrite "go";
ENDPROC
ENDMODULE
