MODULE M
PERS bool a := FALSE;
PERS bool b := FALSE;
PROC main()
WaitUntil b;
a := TRUE;
ENDPROC
ENDMODULE
