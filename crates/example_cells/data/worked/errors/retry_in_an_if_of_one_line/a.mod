MODULE M
VAR num z;
VAR num n;
PROC main()
! The IF comes to its statement, which is one of its own, with its own Look; it is this statement that fails and that RETRY does
! again. If RETRY did the IF again, n = 0 would be FALSE by then, and x would not be written.
IF n = 0 TPWrite "x="\Num:=1 / z;
TPWrite "end";
ERROR
z := 1;
n := 1;
RETRY;
ENDPROC
ENDMODULE
