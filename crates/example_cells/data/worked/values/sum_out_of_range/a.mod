MODULE M
VAR num most := 9999999999.999;
PROC main()
TPWrite "before";
most := most + 0.001;
TPWrite "behind";
ENDPROC
ENDMODULE
