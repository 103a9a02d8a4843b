MODULE M
PERS num k := 0;
VAR intnum i1;
VAR intnum i2;
TRAP t1
k := k + 1;
ENDTRAP
TRAP t2
TPWrite "k"\Num:=k;
ENDTRAP
PROC main()
CONNECT i1 WITH t1;
ISignalDO do1, 1, i1;
CONNECT i2 WITH t2;
IPers k, i2;
Set do1;
TPWrite "end";
ENDPROC
ENDMODULE
