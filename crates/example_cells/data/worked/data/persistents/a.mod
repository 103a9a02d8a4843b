MODULE M
PERS num k := 7;
TASK PERS string s := "a";
PROC main()
k := k * 2;
s := s + "b";
TPWrite ""\Num:=k;
TPWrite s;
ENDPROC
ENDMODULE
