MODULE M
PERS jointtarget t{2};
PERS bool b{2};
VAR num i := 3;
PROC main()
TPWrite ""\Num:=t{i}.extax.eax_f;
ENDPROC
ENDMODULE
