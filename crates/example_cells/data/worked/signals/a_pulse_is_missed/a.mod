MODULE M
PROC main()
TPWrite "w";
WaitDI di_part, 1;
ENDPROC
ENDMODULE
