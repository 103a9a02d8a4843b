MODULE M
VAR num a{3} := [1, 2, 3];
PROC main()
a{2} := a{1} + a{3};
a{a{1}} := 9;
TPWrite ""\Num:=a{1};
TPWrite ""\Num:=a{2};
TPWrite ""\Num:=a{3};
ENDPROC
ENDMODULE
