MODULE M
VAR num z;
PROC main()
TPWrite ""\Num:=ERRNO;
TPWrite ""\Num:=1 / z;
TPWrite ""\Num:=ERRNO;
ERROR
TRYNEXT;
ENDPROC
ENDMODULE
