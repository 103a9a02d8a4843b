MODULE M
VAR jointtarget a := [[1,2,3,4,5,6],[9E9,9E9,9E9,9E9,9E9,9E9]];
VAR jointtarget b := [[1,2,3,4,5,6],[9E9,9E9,9E9,9E9,9E9,9E9]];
PROC main()
TPWrite ""\Bool:=a = b;
TPWrite ""\Bool:=a <> b;
TPWrite ""\Bool:=a.robax = b.robax;
TPWrite ""\Bool:=a.extax = b.extax;
ENDPROC
ENDMODULE
