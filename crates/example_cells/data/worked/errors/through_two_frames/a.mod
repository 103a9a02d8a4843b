MODULE M
PROC r()
RAISE 7;
ENDPROC
PROC q()
r;
TPWrite "never";
ENDPROC
PROC p()
q;
TPWrite "behind";
ERROR
TPWrite ""\Num:=ERRNO;
TRYNEXT;
ENDPROC
PROC main()
p;
TPWrite "end";
ENDPROC
ENDMODULE
