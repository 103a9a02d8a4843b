MODULE M
VAR jointtarget j := [[1,2,3,4,5,6],[9E9,9E9,9E9,9E9,9E9,9E9]];
PROC main()
j.robax.rax_2 := 20;
j.extax.eax_a := 7;
TPWrite ""\Num:=j.robax.rax_1;
TPWrite ""\Num:=j.robax.rax_2;
TPWrite ""\Num:=j.extax.eax_a;
ENDPROC
ENDMODULE
