MODULE M
VAR num z;
PROC told(num n)
TPWrite ""\Num:=n;
ENDPROC
PROC p()
RAISE 7;
ERROR
told 1 / z;
TPWrite "never";
ENDPROC
PROC main()
p;
TPWrite "behind";
ERROR
TPWrite "m"\Num:=ERRNO;
TRYNEXT;
ENDPROC
ENDMODULE
