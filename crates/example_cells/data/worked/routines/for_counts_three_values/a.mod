MODULE M
PROC p(num n)
VAR num a{996};
FOR i FROM 1 TO 1 DO
IF n > 1 p n - 1;
ENDFOR
ENDPROC
PROC main()
p 20;
TPWrite "end";
p 21;
TPWrite "never";
ENDPROC
ENDMODULE
