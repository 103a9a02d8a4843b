MODULE Count
PERS num count := 0;
PROC main()
count := count + 1;
WaitUntil count >= 3;
count := count + 1;
ENDPROC
ENDMODULE
