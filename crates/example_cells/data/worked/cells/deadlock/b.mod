MODULE M
PERS bool a := FALSE;
PERS bool b := FALSE;
PROC main()
WaitUntil a;
b := TRUE;
ENDPROC
ENDMODULE
