MODULE M
FUNC num f(num n)
IF n > 0 RETURN n;
ENDFUNC
PROC main()
TPWrite ""\Num:=f(1);
TPWrite ""\Num:=f(0);
ENDPROC
ENDMODULE
