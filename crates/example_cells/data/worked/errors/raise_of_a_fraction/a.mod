MODULE M
! The number of RAISE is whole and from 1 to 90: 1.5 is a fault, which no ERROR part handles.
! Cut to 1 it would be an error, and the ERROR part would be done.
PROC main()
RAISE 1.5;
ERROR
TPWrite "never"\Num:=ERRNO;
TRYNEXT;
ENDPROC
ENDMODULE
