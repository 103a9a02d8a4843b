MODULE M
PERS jointtarget j{2};
VAR robjoint r;
PROC main()
j{2}.robax.rax_2 := 20;
ENDPROC
ENDMODULE
