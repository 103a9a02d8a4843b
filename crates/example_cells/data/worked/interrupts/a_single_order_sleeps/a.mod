MODULE M
VAR intnum i1;
TRAP t1
TPWrite "t1";
ENDTRAP
PROC main()
CONNECT i1 WITH t1;
ISignalDO\Single, do1, 1, i1;
ISleep i1;
! Asleep it does not fire, and its order stays, which ends as it fires. If it ended here, t1 would never be written.
Set do1;
IWatch i1;
Reset do1;
! It fires, and its order ends.
Set do1;
TPWrite "once";
Reset do1;
Set do1;
TPWrite "end";
ENDPROC
ENDMODULE
