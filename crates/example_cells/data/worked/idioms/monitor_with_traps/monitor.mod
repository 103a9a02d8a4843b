MODULE Monitor
  PERS bool finished := FALSE;
  VAR intnum door_opens;
  VAR num times := 0;

  TRAP count_door
    Incr times;
    TPWrite "door open, time "\Num:=times;
  ENDTRAP

  ! IDelete to be safe: an intnum that is not connected is an error, which the ERROR part passes over.
  PROC drop(VAR intnum i)
    IDelete i;
  ERROR
    TRYNEXT;
  ENDPROC

  PROC main()
    drop door_opens;
    CONNECT door_opens WITH count_door;
    ISignalDI di_door, 1, door_opens;
    Set do_watching;
    WaitUntil finished;
    TPWrite "watched to the end";
  ENDPROC
ENDMODULE
