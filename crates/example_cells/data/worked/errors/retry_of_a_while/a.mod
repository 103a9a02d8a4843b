MODULE M
VAR num z := 1;
VAR num k;
PROC main()
WHILE k < 4 / z DO
Incr k;
TPWrite ""\Num:=k;
IF k = 1 z := 0;
ENDWHILE
TPWrite "end";
ERROR
z := 2;
RETRY;
ENDPROC
ENDMODULE
