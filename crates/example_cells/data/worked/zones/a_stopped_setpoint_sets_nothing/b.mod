MODULE M
PROC main()
WaitDO do_lamp, 1;
TPWrite "set";
ENDPROC
ENDMODULE
