MODULE M
VAR syncident s;
VAR tasks all{16} := [["ROB1"],["ROB2"],["ROB3"],["ROB4"],["ROB5"],["ROB6"],["ROB7"],["ROB8"],["ROB9"],["ROB10"],["ROB11"],["ROB12"],["ROB13"],["ROB14"],["ROB15"],["ROB16"]];
PROC main()
WaitSyncTask s, all;
TPWrite "met";
ENDPROC
ENDMODULE
