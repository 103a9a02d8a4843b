MODULE M
PROC main()
! By turns: the Look here is the first counted event. In the same round task B ends and the first input comes, and neither counts.
WaitTime 0;
! The second is the Look here, the third the read of di2, which is still 0; only then does the second input come, which waits for
! three. If B's End or the first input counted, it would come before the read.
TPWrite "di2="\Num:=di2;
TPWrite "di2="\Num:=di2;
ENDPROC
ENDMODULE
