MODULE M
VAR intnum i1;
FUNC jointtarget there()
TPWrite "never";
RETURN [[1,0,0,0,0,0],[9E9,9E9,9E9,9E9,9E9,9E9]];
ENDFUNC
TRAP t1
! MoveInTrap comes before the target is evaluated; after it, there would write first.
MoveAbsJ there(), v1000, fine, tool0;
ENDTRAP
PROC main()
CONNECT i1 WITH t1;
ISignalDO do1, 1, i1;
Set do1;
TPWrite "never";
ENDPROC
ENDMODULE
