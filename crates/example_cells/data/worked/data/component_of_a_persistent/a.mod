MODULE M
PERS jointtarget j{2};
VAR robjoint r;
PROC main()
! By turns both tasks look, and then both write, one event each. The part alone is written, so both parts stand: 10 + 20. If the
! whole were read, changed and written, the other task's part would be written over, and 20 be left.
j{2}.robax.rax_1 := 10;
WaitTime 0;
r := j{2}.robax;
TPWrite ""\Num:=r.rax_1 + r.rax_2;
ENDPROC
ENDMODULE
