MODULE M
VAR intnum i1;
TRAP t
VAR num x;
TPWrite "never";
ENDTRAP
! A frame has 1,000 values, its parameter and 999 elements.
PROC p(num n)
VAR num a{999};
IF n > 1 THEN
p n - 1;
ELSE
Set do1;
! Twenty frames of p have the 20,000 values that there is room for, and the trap's x is one more. So the trap that is due here
! is not entered: DepthLimit, before this text.
TPWrite "never";
ENDIF
ENDPROC
PROC main()
CONNECT i1 WITH t;
ISignalDO do1, 1, i1;
p 20;
ENDPROC
ENDMODULE
