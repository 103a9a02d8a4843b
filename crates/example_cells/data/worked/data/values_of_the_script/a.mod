MODULE M
PERS num k := 7;
PERS bool b := FALSE;
PERS string s := "x";
PROC main()
TPWrite ""\Num:=k;
TPWrite ""\Bool:=b;
TPWrite s;
ENDPROC
ENDMODULE
