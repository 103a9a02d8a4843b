MODULE M
VAR num n;
PROC main()
FOR i FROM 1 TO 4 DO
IF i = 1 THEN
TPWrite "one";
ELSEIF i = 2 THEN
TPWrite "two";
ELSEIF i < 3 THEN
TPWrite "never";
ELSE
TPWrite "more";
ENDIF
ENDFOR
ENDPROC
ENDMODULE
