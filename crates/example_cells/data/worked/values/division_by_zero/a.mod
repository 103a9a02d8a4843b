MODULE M
VAR num z;
PROC main()
TPWrite ""\Num:=1 / z;
ENDPROC
ENDMODULE
