MODULE M
PROC p(num n)
VAR num a{999};
IF n > 1 p n - 1;
ENDPROC
PROC main()
p 20;
TPWrite "end";
p 21;
TPWrite "never";
ENDPROC
ENDMODULE
