MODULE M
VAR num sum;
PROC main()
FOR i FROM 1 TO 3 DO
FOR j FROM i TO 3 STEP 1 DO
sum := sum + i * 10 + j;
ENDFOR
ENDFOR
TPWrite ""\Num:=sum;
ENDPROC
ENDMODULE
