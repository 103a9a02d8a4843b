MODULE M
PROC p(num n)
IF n > 1 p n - 1;
ENDPROC
PROC main()
p 31;
TPWrite "end";
ENDPROC
ENDMODULE
