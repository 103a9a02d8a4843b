MODULE Other
  PROC main()
    tries := 2;
    IF fetched(5) = 7 THEN
      TPWrite "seven";
    ENDIF
    RAISE 7;
  ENDPROC
ENDMODULE
