MODULE M
PERS jointtarget j := [[1,2,3,4,5,6],[9E9,9E9,9E9,9E9,9E9,9E9]];
VAR intnum i1;
TRAP t1
TPWrite "t1";
ENDTRAP
PROC main()
CONNECT i1 WITH t1;
IPers j, i1;
j.robax.rax_3 := 3;
TPWrite "same";
j.robax.rax_3 := 4;
TPWrite "end";
ENDPROC
ENDMODULE
