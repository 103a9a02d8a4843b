MODULE M
VAR jointtarget j;
PROC main()
MoveAbsJ [[1,0,0,0,0,0],[9E9,9E9,9E9,9E9,9E9,9E9]], v1000, fine, tool0;
j := CJointT();
TPWrite ""\Num:=j.robax.rax_1;
TPWrite ""\Bool:=j.extax.eax_a = 9E9;
j.robax.rax_1 := 2;
MoveAbsJ j\NoEOffs, v1000, fine, tool0\WObj:=wobj0;
ENDPROC
ENDMODULE
