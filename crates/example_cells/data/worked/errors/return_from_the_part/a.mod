MODULE M
PROC p()
RAISE 7;
TPWrite "never";
ERROR
TPWrite "part"\Num:=ERRNO;
RETURN;
ENDPROC
PROC main()
p;
TPWrite "back";
ENDPROC
ENDMODULE
