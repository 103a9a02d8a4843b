MODULE M
! The same of 90.5: cut to 90 it would be an error.
PROC main()
RAISE 90.5;
ERROR
TPWrite "never"\Num:=ERRNO;
TRYNEXT;
ENDPROC
ENDMODULE
