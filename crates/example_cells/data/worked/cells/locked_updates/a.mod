MODULE M
PERS bool taken := FALSE;
PERS num n := 0;
VAR syncident s;
VAR tasks both{2} := [["A"],["B"]];
PROC main()
FOR i FROM 1 TO 20 DO
WaitTestAndSet taken;
n := n + 1;
taken := FALSE;
ENDFOR
WaitSyncTask s, both;
TPWrite ""\Num:=n;
ENDPROC
ENDMODULE
