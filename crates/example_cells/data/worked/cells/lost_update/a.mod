MODULE M
PERS num n := 0;
PROC main()
n := n + 1;
TPWrite ""\Num:=n;
ENDPROC
ENDMODULE
