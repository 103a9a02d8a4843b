MODULE M
VAR tasks other{1} := [["B"]];
VAR syncident s;
PROC main()
WaitSyncTask s, other;
TPWrite "a";
ENDPROC
ENDMODULE
