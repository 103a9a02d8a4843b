MODULE Syntax

  PERS num parts := 0;

  PROC main()
    IF parts > 10 THEN
      parts := 0;
  ENDPROC

ENDMODULE
