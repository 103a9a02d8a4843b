MODULE M
FUNC num long(num d)
TPWrite "long";
RETURN 1 / d;
ENDFUNC
PROC main()
WaitTime long(2);
WaitTime long(0);
ENDPROC
ENDMODULE
