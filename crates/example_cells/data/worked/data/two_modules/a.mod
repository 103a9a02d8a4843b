MODULE M
LOCAL VAR num n := 1;
PROC main()
n := n + 10;
other;
TPWrite ""\Num:=n;
TPWrite ""\Num:=shared;
ENDPROC
ENDMODULE
