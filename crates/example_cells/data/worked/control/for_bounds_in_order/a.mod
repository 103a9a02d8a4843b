MODULE M
FUNC num told(num n)
TPWrite ""\Num:=n;
RETURN n;
ENDFUNC
PROC main()
FOR i FROM told(7) TO told(8) STEP told(9) DO
TPWrite "turn";
ENDFOR
ENDPROC
ENDMODULE
