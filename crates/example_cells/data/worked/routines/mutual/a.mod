MODULE M
FUNC bool even(num n)
IF n = 0 RETURN TRUE;
RETURN odd(n - 1);
ENDFUNC
FUNC bool odd(num n)
IF n = 0 RETURN FALSE;
RETURN even(n - 1);
ENDFUNC
PROC main()
TPWrite ""\Bool:=even(10);
TPWrite ""\Bool:=odd(10);
ENDPROC
ENDMODULE
