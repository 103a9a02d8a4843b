MODULE M
FUNC num f(num n)
RETURN 10 / n;
ERROR
RETURN -1;
ENDFUNC
PROC main()
TPWrite ""\Num:=f(5);
TPWrite ""\Num:=f(0);
ENDPROC
ENDMODULE
