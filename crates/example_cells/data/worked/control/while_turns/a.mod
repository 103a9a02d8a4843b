MODULE M
VAR num n := 3;
PROC main()
WHILE n > 0 DO
TPWrite ""\Num:=n;
Decr n;
ENDWHILE
TPWrite ""\Num:=n;
ENDPROC
ENDMODULE
