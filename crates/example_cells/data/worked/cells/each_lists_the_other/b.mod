MODULE M
VAR tasks other{1} := [["A"]];
VAR syncident s;
PROC main()
WaitSyncTask s, other;
TPWrite "b";
ENDPROC
ENDMODULE
