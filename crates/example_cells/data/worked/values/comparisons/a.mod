MODULE M
VAR num x := 2;
PROC main()
TPWrite ""\Bool:=x < 3;
TPWrite ""\Bool:=x < 2;
TPWrite ""\Bool:=x <= 2;
TPWrite ""\Bool:=x > 2;
TPWrite ""\Bool:=x >= 2;
TPWrite ""\Bool:=x = 2;
TPWrite ""\Bool:=x <> 2;
ENDPROC
ENDMODULE
