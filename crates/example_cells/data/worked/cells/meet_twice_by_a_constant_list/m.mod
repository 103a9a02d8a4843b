MODULE M
CONST tasks all{3} := [["A"],["B"],["C"]];
VAR syncident s;
PROC main()
WaitSyncTask s, all;
WaitSyncTask s, all;
TPWrite "ok";
ENDPROC
ENDMODULE
