MODULE Main
PERS num count;
PERS bool flags{3};
PROC main()
ENDPROC
ENDMODULE
