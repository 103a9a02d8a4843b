MODULE M
PERS num few{2} := [3, 4];
VAR num x := 1;
VAR bool list{2} := [TRUE, FALSE];
PERS bool done;
PROC main()
x := few{2};
done := TRUE;
ENDPROC
ENDMODULE
