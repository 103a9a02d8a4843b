MODULE M
FUNC num told(num n)
TPWrite ""\Num:=n;
RETURN n;
ENDFUNC
VAR num a{9};
PROC p(num x, INOUT num y, num z)
TPWrite "p";
ENDPROC
PROC main()
p told(1), a{told(2)}, told(3);
ENDPROC
ENDMODULE
