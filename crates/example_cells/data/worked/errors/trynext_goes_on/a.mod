MODULE M
VAR num z;
VAR num n := 5;
PROC main()
n := 1 / z;
TPWrite ""\Num:=n;
ERROR
TRYNEXT;
ENDPROC
ENDMODULE
