MODULE M
VAR num z;
FUNC num sum(num a, num b, num c)
RETURN a + b + c;
ENDFUNC
PROC main()
FOR i FROM 1 TO 3 DO
TPWrite ""\Num:=sum(i, sum(1, 2, 6 / z), sum(1, 1, 1));
z := 0;
ENDFOR
ERROR
z := 2;
RETRY;
ENDPROC
ENDMODULE
