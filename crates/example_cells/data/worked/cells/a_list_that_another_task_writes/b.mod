MODULE M
PERS tasks list{2} := [["A"],["A"]];
VAR syncident s;
PROC main()
list{2} := ["B"];
WaitSyncTask s, list;
TPWrite "b";
ENDPROC
ENDMODULE
