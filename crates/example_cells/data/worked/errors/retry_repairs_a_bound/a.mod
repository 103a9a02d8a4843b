MODULE M
VAR num z;
PROC main()
FOR i FROM 1 TO 2 / z DO
TPWrite ""\Num:=i;
ENDFOR
TPWrite "end";
ERROR
TPWrite "part";
z := 1;
RETRY;
ENDPROC
ENDMODULE
