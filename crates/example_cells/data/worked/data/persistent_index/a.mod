MODULE M
PERS num a{3} := [1, 2, 3];
VAR num i := 4;
PROC main()
TPWrite ""\Num:=a{i};
ENDPROC
ENDMODULE
