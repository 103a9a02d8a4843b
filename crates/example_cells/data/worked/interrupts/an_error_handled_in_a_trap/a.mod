MODULE M
VAR intnum i1;
TRAP t1
RAISE 7;
TPWrite "behind";
ERROR
TPWrite ""\Num:=ERRNO;
TRYNEXT;
ENDTRAP
PROC main()
CONNECT i1 WITH t1;
ISignalDO do1, 1, i1;
Set do1;
TPWrite "end";
ENDPROC
ENDMODULE
