MODULE M
VAR syncident s;
VAR tasks both{2} := [["A"],["B"]];
PROC main()
WaitSyncTask s, both;
TPWrite "never";
ENDPROC
ENDMODULE
