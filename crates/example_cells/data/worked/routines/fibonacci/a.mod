MODULE M
FUNC num fib(num n)
IF n < 3 RETURN 1;
RETURN fib(n - 1) + fib(n - 2);
ENDFUNC
PROC main()
TPWrite ""\Num:=fib(12);
ENDPROC
ENDMODULE
