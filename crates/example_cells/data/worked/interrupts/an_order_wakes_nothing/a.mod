MODULE M
VAR intnum i1;
TRAP t1
TPWrite "t1";
ENDTRAP
PROC main()
CONNECT i1 WITH t1;
ISleep i1;
ISignalDO do1, 1, i1;
! Ordered, but still asleep: nothing fires. If the order woke it, t1 would be written first.
Set do1;
TPWrite "asleep";
IWatch i1;
Reset do1;
! Awake, with the order that was given in its sleep.
Set do1;
TPWrite "end";
ENDPROC
ENDMODULE
