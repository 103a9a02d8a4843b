MODULE M
FUNC num f()
RAISE 7;
ERROR
TPWrite "f";
ENDFUNC
PROC main()
TPWrite ""\Num:=1 + f();
TPWrite "behind";
ERROR
TPWrite "m"\Num:=ERRNO;
TRYNEXT;
ENDPROC
ENDMODULE
