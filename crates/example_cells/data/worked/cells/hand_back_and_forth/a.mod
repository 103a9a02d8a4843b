MODULE M
PERS num turn := 1;
PROC main()
FOR i FROM 1 TO 3 DO
WaitUntil turn = 1;
TPWrite "a"\Num:=i;
turn := 2;
ENDFOR
ENDPROC
ENDMODULE
