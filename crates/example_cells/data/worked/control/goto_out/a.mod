MODULE M
VAR num n;
PROC main()
FOR i FROM 1 TO 9 DO
WHILE TRUE DO
Incr n;
IF n = 5 GOTO out;
IF n MOD 2 = 0 GOTO next;
ENDWHILE
next:
ENDFOR
out:
TPWrite ""\Num:=n;
ENDPROC
ENDMODULE
