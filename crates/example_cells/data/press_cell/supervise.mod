MODULE Supervise
  PERS num parts := 0;
  PERS bool table_busy{2} := [FALSE,FALSE];
  PERS string recipe := "";

  PROC main()
    WaitDI di_door, 1;
    WHILE parts < 12 AND (NOT table_busy{1}) DO
      TPWrite recipe + ": "\Num:=parts;
      parts := parts + 1;
    ENDWHILE
    Reset do_press;
    WaitDI di_door, 0;
    TPWrite "door closed";
  ENDPROC
ENDMODULE
