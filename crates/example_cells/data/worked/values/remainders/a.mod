MODULE M
VAR num x := -7;
VAR num y := -2;
PROC main()
TPWrite ""\Num:=7 MOD 2;
TPWrite ""\Num:=x MOD 2;
TPWrite ""\Num:=7 MOD y;
TPWrite ""\Num:=x MOD y;
TPWrite ""\Num:=7.5 MOD 2;
TPWrite ""\Num:=0.5 MOD 0.2;
ENDPROC
ENDMODULE
