MODULE M
VAR bool seen;
VAR intnum i1;
TRAP t1
TPWrite "t1";
seen := TRUE;
ENDTRAP
PROC main()
CONNECT i1 WITH t1;
ISignalDI di1, 1, i1;
WaitUntil seen;
TPWrite "end";
ENDPROC
ENDMODULE
