MODULE M
VAR num z;
PROC main()
! The second condition fails. RETRY evaluates the conditions anew, from the first on, which is TRUE by then. If it did only the
! one that failed again, the second list would be done.
IF z = 1 THEN
TPWrite "first";
ELSEIF 1 / z = 1 THEN
TPWrite "second";
ENDIF
TPWrite "end";
ERROR
z := 1;
RETRY;
ENDPROC
ENDMODULE
