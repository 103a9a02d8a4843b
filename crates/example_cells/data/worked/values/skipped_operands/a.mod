MODULE M
VAR num z := 0;
PROC main()
TPWrite ""\Bool:=FALSE AND 1 / z = 1;
TPWrite ""\Bool:=TRUE OR 1 / z = 1;
ENDPROC
ENDMODULE
