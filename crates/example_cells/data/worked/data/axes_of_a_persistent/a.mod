MODULE M
PERS jointtarget t{2};
PERS bool b;
PERS string s;
PROC main()
t{2}.extax.eax_f := 5;
ENDPROC
ENDMODULE
