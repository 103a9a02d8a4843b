MODULE M
VAR num most := 9999999999.999;
PROC main()
TPWrite ""\Num:=most;
TPWrite ""\Num:=most - 0.001;
TPWrite ""\Num:=-most;
ENDPROC
ENDMODULE
