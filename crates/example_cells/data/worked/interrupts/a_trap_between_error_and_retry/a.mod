MODULE M
VAR num z;
VAR intnum i1;
TRAP t1
TPWrite "t1";
ENDTRAP
PROC main()
CONNECT i1 WITH t1;
ISignalDO do1, 1, i1;
TPWrite ""\Num:=4 / z;
ERROR
Set do1;
Incr z;
RETRY;
ENDPROC
ENDMODULE
