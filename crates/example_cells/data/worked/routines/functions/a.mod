MODULE M
FUNC num greater(num a, num b)
IF a > b RETURN a;
RETURN b;
ENDFUNC
FUNC string twice(string s)
RETURN s + s;
ENDFUNC
FUNC bool is_small(num n)
RETURN n < 10;
ENDFUNC
PROC main()
TPWrite ""\Num:=greater(3, 4) + greater(9, 1);
TPWrite twice(twice("ab"));
TPWrite ""\Bool:=is_small(9) AND is_small(10) = FALSE;
ENDPROC
ENDMODULE
