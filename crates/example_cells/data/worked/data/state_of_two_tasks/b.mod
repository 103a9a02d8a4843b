MODULE M
PERS bool done;
TASK PERS string own := "b";
VAR string word := "to ";
VAR num y;
PROC main()
y := 2.5;
WaitUntil done;
word := word + own;
ENDPROC
ENDMODULE
