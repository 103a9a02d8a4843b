MODULE M
VAR string s := "ab";
PROC main()
TPWrite ""\Bool:=s = "ab";
TPWrite ""\Bool:=s = "AB";
TPWrite ""\Bool:=s <> "abc";
TPWrite ""\Bool:=s + "" = "ab";
ENDPROC
ENDMODULE
