MODULE Lists
  VAR num n := 0;

  FUNC bool is_small(num x)
    IF x < 2 RETURN TRUE;
    RETURN FALSE;
  ENDFUNC

  PROC main()
    WHILE is_small(n) DO
      IF n = 0 THEN
        n := n + 1;
      ELSEIF n = 5 THEN
        n := 6;
      ELSE
        n := 2;
      ENDIF
    ENDWHILE
    FOR i FROM 1 TO 2 DO
      TPWrite "turn "\Num:=i;
    ENDFOR
    TEST n
    CASE 1:
      TPWrite "one";
    CASE 2, 3:
    many:
      TPWrite "more";
    ENDTEST
    IF n = 0 TPWrite "none";
    WHILE FALSE DO
    ENDWHILE
    FOR i FROM 1 TO 0 STEP 1 DO
      TPWrite "never";
    ENDFOR
  ENDPROC

  PROC unused()
    TPWrite "unused";
  ENDPROC
ENDMODULE
