MODULE M
VAR intnum i;
TRAP t
TPWrite "trap";
ENDTRAP
PROC p(num left)
IF left > 0 THEN
p left - 1;
ELSE
Set do_lamp;
TPWrite "never";
ENDIF
ENDPROC
PROC main()
CONNECT i WITH t;
ISignalDO do_lamp, 1, i;
p 30;
ENDPROC
ENDMODULE
