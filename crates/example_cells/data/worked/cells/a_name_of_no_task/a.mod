MODULE M
VAR syncident s;
VAR tasks both{2} := [["A"],["C"]];
PROC main()
WaitSyncTask s, both;
ENDPROC
ENDMODULE
