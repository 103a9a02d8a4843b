MODULE M
VAR num n;
PROC main()
FOR i FROM 1 TO 1500 DO
n := n + 1;
ENDFOR
WaitDI di1, 1;
TPWrite ""\Num:=n;
ENDPROC
ENDMODULE
