MODULE M
VAR num z := 0;
PROC main()
TPWrite ""\Bool:=TRUE XOR 1 / z = 1;
ENDPROC
ENDMODULE
