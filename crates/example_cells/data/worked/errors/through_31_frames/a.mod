MODULE M
VAR num n;
PROC p(num left)
IF left = 1 RAISE 8;
p left - 1;
ENDPROC
PROC main()
Incr n;
IF n < 4 p 31;
TPWrite ""\Num:=n;
ERROR
Incr n;
IF n < 4 RETRY;
TRYNEXT;
ENDPROC
ENDMODULE
