MODULE M
VAR num n := 1;
PROC p(num n)
n := n + 1;
TPWrite "p"\Num:=n;
FOR n FROM 5 TO 6 DO
TPWrite "f"\Num:=n;
ENDFOR
TPWrite "p"\Num:=n;
ENDPROC
PROC main()
p 3;
TPWrite ""\Num:=n;
ENDPROC
ENDMODULE
