MODULE M
VAR num z := 0;
FUNC num told(num n)
TPWrite ""\Num:=n;
RETURN n;
ENDFUNC
PROC main()
TPWrite ""\Num:=told(1) + told(2) * told(3);
ENDPROC
ENDMODULE
