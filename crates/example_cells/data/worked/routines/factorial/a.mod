MODULE M
FUNC num factorial(num n)
IF n < 2 RETURN 1;
RETURN n * factorial(n - 1);
ENDFUNC
PROC main()
TPWrite ""\Num:=factorial(10);
ENDPROC
ENDMODULE
