MODULE M
VAR num a{3};
FUNC num told(num n)
TPWrite ""\Num:=n;
RETURN n;
ENDFUNC
PROC main()
a{told(2)} := told(7);
TPWrite ""\Num:=a{2};
ENDPROC
ENDMODULE
