MODULE M
VAR robjoint r;
VAR jointtarget j;
PROC main()
r := [6,5,4,3,2,1];
j.robax := r;
TPWrite ""\Num:=j.robax.rax_1;
TPWrite ""\Num:=j.extax.eax_f;
ENDPROC
ENDMODULE
