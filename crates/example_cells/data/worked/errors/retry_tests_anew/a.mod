MODULE M
VAR num z;
VAR num n;
FUNC num told()
Incr n;
RETURN n;
ENDFUNC
PROC main()
TEST told()
CASE 9:
TPWrite "never";
CASE 2 / z:
TPWrite "two"\Num:=n;
DEFAULT:
TPWrite "never";
ENDTEST
ERROR
z := 1;
RETRY;
ENDPROC
ENDMODULE
