MODULE M
PROC p(num n)
IF n > 1 p n - 1;
ENDPROC
PROC main()
p 32;
TPWrite "never";
ENDPROC
ENDMODULE
