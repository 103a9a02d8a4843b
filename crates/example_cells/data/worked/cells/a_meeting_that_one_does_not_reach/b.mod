MODULE M
VAR syncident s;
VAR tasks both{2} := [["A"],["B"]];
PROC main()
TPWrite "b";
ENDPROC
ENDMODULE
