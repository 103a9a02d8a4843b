MODULE M
PERS num a{3} := [0, 0, 0];
PERS bool ready := FALSE;
PROC main()
WaitUntil ready;
a{2} := 4;
a{2} := 5;
ENDPROC
ENDMODULE
