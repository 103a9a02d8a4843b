MODULE M
PERS tasks list{2} := [["A"],["A"]];
VAR syncident s;
PROC main()
WaitSyncTask s, list;
TPWrite "a";
ENDPROC
ENDMODULE
