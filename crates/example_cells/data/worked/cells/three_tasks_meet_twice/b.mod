MODULE M
CONST tasks all{3} := [["A"],["B"],["C"]];
VAR syncident s;
VAR num n;
PROC main()
n := 1;
n := 1;
WaitSyncTask s, all;
WaitSyncTask s, all;
ENDPROC
ENDMODULE
