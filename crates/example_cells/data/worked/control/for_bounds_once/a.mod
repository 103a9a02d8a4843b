MODULE M
VAR num n := 3;
PROC main()
FOR i FROM 1 TO n DO
n := 1;
TPWrite ""\Num:=i;
ENDFOR
ENDPROC
ENDMODULE
