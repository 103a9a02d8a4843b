MODULE Rob2
  PERS bool rob1_done := FALSE;
  CONST jointtarget in_area := [[10,0,0,0,0,0],[9E9,9E9,9E9,9E9,9E9,9E9]];

  PROC main()
    ! Without this wait ROB2 ends with ZoneStop where it would come to the area.
    WaitUntil rob1_done;
    MoveAbsJ in_area\NoEOffs, v5000, fine, tool0;
    TPWrite "rob2 in the area";
  ENDPROC
ENDMODULE
