MODULE M
PROC main()
! The input waits for two given setpoints. If the stopped one counted, it would come, and this task would end.
WaitDI di1, 1;
TPWrite "never";
ENDPROC
ENDMODULE
