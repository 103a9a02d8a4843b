MODULE M
PROC main()
WaitDO do_lamp, 1;
TPErase;
TPErase;
Set do_lamp;
ENDPROC
ENDMODULE
