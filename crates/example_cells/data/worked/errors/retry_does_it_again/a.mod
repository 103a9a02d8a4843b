MODULE M
VAR num z;
PROC main()
TPWrite ""\Num:=6 / z;
ERROR
Incr z;
RETRY;
ENDPROC
ENDMODULE
