MODULE Calls(SYSMODULE, VIEWONLY)
  ! Routines of every kind, and parameters of every mode.
  TRAP see_lamp
    TPWrite "lamp off";
  ENDTRAP

  TRAP see_part
    Incr parts;
  ENDTRAP

  TRAP see_count
    note;
  ENDTRAP

  LOCAL PROC note()
  ENDPROC

  PROC work(num limit, INOUT num count, VAR string text, PERS bool taken)
    VAR num seen{2} := [1, 2];
    IF count > limit THEN
      count := limit;
    ENDIF
    IF taken RETURN;
    text := "work " + text;
    count := count + seen{2} / (count - count);
  ERROR
    IF ERRNO = ERR_DIVZERO THEN
      count := count + 1;
      TRYNEXT;
    ENDIF
  ENDPROC

  FUNC string names_of(num number)
    IF number = 2 AND kept = 2 RAISE 41;
    RETURN "names ";
  ENDFUNC
ENDMODULE
