MODULE M
PERS num k := 0;
FUNC bool no()
RETURN FALSE;
ENDFUNC
PROC main()
WaitUntil k = 1 OR no();
TPWrite "on";
ENDPROC
ENDMODULE
