MODULE M
PERS num a{3} := [1, 2, 3];
PROC main()
a{3} := a{1} + a{2};
Incr a{1};
TPWrite ""\Num:=a{1};
TPWrite ""\Num:=a{3};
ENDPROC
ENDMODULE
