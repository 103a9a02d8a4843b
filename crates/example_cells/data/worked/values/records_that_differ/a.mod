MODULE M
VAR speeddata a := [1,2,3,4];
VAR speeddata b := [1,2,3,4];
PROC main()
b.v_reax := 5;
TPWrite ""\Bool:=a = b;
TPWrite ""\Bool:=a <> b;
ENDPROC
ENDMODULE
