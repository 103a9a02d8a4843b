MODULE M
VAR num z;
PROC main()
IF z = 1 THEN
TPWrite "never";
ELSEIF 1 / z = 1 THEN
TPWrite "never";
ELSE
TPWrite "never";
ENDIF
TPWrite "behind";
ERROR
TRYNEXT;
ENDPROC
ENDMODULE
