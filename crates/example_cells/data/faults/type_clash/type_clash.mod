MODULE TypeClash

  PERS num parts := 0;

  PROC main()
    parts := parts + 1;
    TPWrite "parts: " + parts;
  ENDPROC

ENDMODULE
