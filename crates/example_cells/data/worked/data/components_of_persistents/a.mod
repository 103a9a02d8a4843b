MODULE M
PERS jointtarget j := [[1,2,3,4,5,6],[9E9,9E9,9E9,9E9,9E9,9E9]];
PROC main()
j.robax.rax_6 := j.robax.rax_1 + 10;
TPWrite ""\Num:=j.robax.rax_6;
TPWrite ""\Num:=j.robax.rax_5;
ENDPROC
ENDMODULE
