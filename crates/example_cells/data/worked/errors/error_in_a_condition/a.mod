MODULE M
VAR num z;
FUNC bool bad()
RETURN 1 / z = 1;
ENDFUNC
PROC main()
IF bad() THEN
TPWrite "never";
ELSE
TPWrite "never";
ENDIF
TPWrite "behind";
ERROR
TPWrite ""\Num:=ERRNO;
TRYNEXT;
ENDPROC
ENDMODULE
