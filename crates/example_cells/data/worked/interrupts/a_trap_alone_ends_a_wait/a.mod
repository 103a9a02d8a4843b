MODULE M
PERS bool b := FALSE;
VAR bool seen;
VAR intnum i1;
TRAP t1
TPWrite "t1";
seen := TRUE;
ISleep i1;
b := FALSE;
ENDTRAP
PROC main()
CONNECT i1 WITH t1;
IPers b, i1;
WaitUntil TestAndSet(b) AND seen;
TPWrite "end";
ENDPROC
ENDMODULE
