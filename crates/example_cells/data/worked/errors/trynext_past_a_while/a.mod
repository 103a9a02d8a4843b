MODULE M
VAR num z := 2;
PROC main()
WHILE 4 / z > 0 DO
TPWrite ""\Num:=z;
Decr z;
ENDWHILE
TPWrite "end";
ERROR
TRYNEXT;
ENDPROC
ENDMODULE
