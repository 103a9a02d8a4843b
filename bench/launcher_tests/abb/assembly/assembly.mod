MODULE assembly
  CONST jointtarget j_home := [[0,-10,20,0,80,0],[9E9,9E9,9E9,9E9,9E9,9E9]];
  CONST jointtarget j_screw{4} := [[[10,5,12,0,60,0],[9E9,9E9,9E9,9E9,9E9,9E9]],
                                   [[14,5,12,0,60,0],[9E9,9E9,9E9,9E9,9E9,9E9]],
                                   [[14,9,12,0,60,0],[9E9,9E9,9E9,9E9,9E9,9E9]],
                                   [[10,9,12,0,60,0],[9E9,9E9,9E9,9E9,9E9,9E9]]];
  PERS string log_line := "";
  PERS bool log_ready := FALSE;
  VAR num torque{4};
  VAR num failed;
  VAR string part_no := "A-100";

  PROC main()
    VAR num k;
    WaitDI diStart, 1;
    MoveAbsJ j_home, v1000, z20, screwdriver;
    failed := 0;
    FOR k FROM 1 TO 4 DO
      drive_screw k;
    ENDFOR
    IF failed > 0 THEN
      log "failed: "\value:=failed;
    ELSE
      log "all " + NumToStr(Dim(torque,1),0) + " screws of " + part_no;
    ENDIF
    MoveAbsJ j_home, v1000, fine, screwdriver;
  ENDPROC

  PROC drive_screw(num at)
    VAR num tries := 0;
    MoveAbsJ j_screw{at}, v500, fine, screwdriver;
    Set doScrew;
    WaitUntil AInput(aiTorque) > 4.5 OR tries > 3 \PollRate:=0.05;
    torque{at} := AInput(aiTorque);
    Reset doScrew;
    IF torque{at} < 4.2 failed := failed + 1
    IF Round(torque{at}\Dec:=1) > 6 THEN
      TPWrite "torque too high: "\Num:=torque{at};
    ENDIF
  ENDPROC

  PROC log(string text \num value)
    log_line := text;
    IF Present(value) log_line := log_line + NumToStr(value, 1);
    log_ready := TRUE;
    WaitUntil log_ready = FALSE;
  ENDPROC

  FUNC string first(string text)
    RETURN StrPart(text, 1, 1);
  ENDFUNC
ENDMODULE
