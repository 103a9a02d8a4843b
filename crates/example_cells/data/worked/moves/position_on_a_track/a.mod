MODULE M
VAR jointtarget here;
PROC main()
here := CJointT();
TPWrite "eax_a "\Num:=here.extax.eax_a;
TPWrite "eax_b "\Num:=here.extax.eax_b;
ENDPROC
ENDMODULE
