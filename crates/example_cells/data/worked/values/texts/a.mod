MODULE M
VAR string s := "a";
PROC main()
s := s + "b" + s;
TPWrite s;
TPWrite "he said ""go"", \\ and \41";
ENDPROC
ENDMODULE
