MODULE M
VAR intnum i1;
TRAP t1
TPWrite "t1";
ENDTRAP
PROC main()
CONNECT i1 WITH t1;
ISignalDO do1, 1, i1;
ISleep i1;
FOR i FROM 1 TO 1100 DO
Set do1;
Reset do1;
ENDFOR
TPWrite "end";
ENDPROC
ENDMODULE
