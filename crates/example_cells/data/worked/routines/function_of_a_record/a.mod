MODULE M
FUNC jointtarget turned(jointtarget j, num by)
j.robax.rax_1 := j.robax.rax_1 + by;
RETURN j;
ENDFUNC
PROC main()
VAR jointtarget j;
j := turned(CJointT(), 5);
TPWrite ""\Num:=j.robax.rax_1;
ENDPROC
ENDMODULE
