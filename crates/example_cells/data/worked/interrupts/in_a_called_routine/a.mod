MODULE M
VAR intnum i1;
TRAP t1
TPWrite "t1";
ENDTRAP
PROC p()
TPWrite "p1";
Set do1;
TPWrite "p2";
ENDPROC
PROC main()
CONNECT i1 WITH t1;
ISignalDO do1, 1, i1;
p;
TPWrite "end";
ENDPROC
ENDMODULE
