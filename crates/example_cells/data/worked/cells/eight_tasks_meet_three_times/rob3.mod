MODULE M
VAR syncident s;
VAR tasks all{8} := [["ROB1"],["ROB2"],["ROB3"],["ROB4"],["ROB5"],["ROB6"],["ROB7"],["ROB8"]];
PROC main()
FOR i FROM 1 TO 3 DO
WaitSyncTask s, all;
TPWrite ""\Num:=i;
ENDFOR
ENDPROC
ENDMODULE
