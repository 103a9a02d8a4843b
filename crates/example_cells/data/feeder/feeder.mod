MODULE Feeder

  CONST num places := 2;
  CONST num no_place := 41;
  PERS num total := 0;
  VAR num place := 1;
  VAR num waiting := 0;
  VAR intnum part_seen;

  ! The angle of axis 1 over a place of the pallet.
  FUNC num angle_over(num place)
    IF place > places THEN
      RAISE no_place;
    ENDIF
    RETURN 20 + 360 / (place + places);
  ENDFUNC

  ! Runs whenever the sensor sees a part.
  TRAP part_comes
    Incr waiting;
    TPWrite "parts that wait: "\Num:=waiting;
  ENDTRAP

  ! Takes a part to the next place, and begins again at the first where the pallet is full.
  PROC take_part()
    VAR jointtarget over := [[0,10,0,0,30,0],[9E9,9E9,9E9,9E9,9E9,9E9]];

    over.robax.rax_1 := angle_over(place);
    MoveAbsJ over\NoEOffs, v7000, fine, tool0;
    Incr place;
    Decr waiting;
    Incr total;
  ERROR
    IF ERRNO = no_place THEN
      place := 1;
      RETRY;
    ENDIF
    RAISE;
  ENDPROC

  PROC main()
    CONNECT part_seen WITH part_comes;
    ISignalDI di_part, 1, part_seen;
    WHILE total < 3 DO
      WaitUntil waiting > 0;
      take_part;
    ENDWHILE
    IDelete part_seen;
  ENDPROC

ENDMODULE
