MODULE M
PERS num turn := 1;
PROC main()
FOR i FROM 1 TO 3 DO
WaitUntil turn = 2;
TPWrite "b"\Num:=i;
turn := 1;
ENDFOR
ENDPROC
ENDMODULE
