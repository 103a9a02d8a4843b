MODULE M
VAR string s := "b";
PROC main()
TEST s
CASE "a":
TPWrite "A";
CASE "b":
TPWrite "B";
ENDTEST
TEST s
CASE "c":
TPWrite "C";
ENDTEST
ENDPROC
ENDMODULE
