MODULE M
VAR num a{3};
PROC main()
TPWrite ""\Num:=a{1.5};
ENDPROC
ENDMODULE
