MODULE M
PERS num a{3} := [0, 0, 0];
PERS bool ready := FALSE;
VAR intnum i1;
TRAP t1
TPWrite "t"\Num:=a{2};
ENDTRAP
PROC main()
CONNECT i1 WITH t1;
IPers a, i1;
a{2} := 4;
ready := TRUE;
WaitUntil a{2} = 5;
TPWrite "end";
ENDPROC
ENDMODULE
