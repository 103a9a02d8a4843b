MODULE M
VAR num z := 1;
PROC main()
FOR i FROM 1 TO 3 DO
TPWrite ""\Num:=6 / (i - 2);
ENDFOR
TPWrite "end";
ERROR
TPWrite "part";
TRYNEXT;
ENDPROC
ENDMODULE
