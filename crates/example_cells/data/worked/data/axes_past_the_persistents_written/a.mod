MODULE M
PERS jointtarget t{2};
PERS bool b{2};
VAR num i := 3;
PROC main()
t{i}.extax.eax_f := 5;
ENDPROC
ENDMODULE
