MODULE M
FUNC num told(num n)
TPWrite ""\Num:=n;
RETURN n;
ENDFUNC
PROC main()
TEST told(2)
CASE told(1), told(2), told(3):
TPWrite "found";
CASE told(2):
TPWrite "never";
ENDTEST
ENDPROC
ENDMODULE
