MODULE M
VAR intnum i1;
VAR num n;
TRAP t1
Incr n;
ENDTRAP
PROC main()
CONNECT i1 WITH t1;
ISignalDO do1, 1, i1;
IDisable;
FOR i FROM 1 TO 1024 DO
Set do1;
Reset do1;
ENDFOR
IEnable;
TPWrite ""\Num:=n;
ENDPROC
ENDMODULE
