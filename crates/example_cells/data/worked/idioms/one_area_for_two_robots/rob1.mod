MODULE Rob1
  PERS bool rob1_done := FALSE;
  CONST jointtarget low_side := [[8,9E9,9E9,9E9,9E9,9E9],[9E9,9E9,9E9,9E9,9E9,9E9]];
  CONST jointtarget high_side := [[12,9E9,9E9,9E9,9E9,9E9],[9E9,9E9,9E9,9E9,9E9,9E9]];
  CONST jointtarget in_area := [[10,0,0,0,0,0],[9E9,9E9,9E9,9E9,9E9,9E9]];
  CONST jointtarget home := [[0,0,0,0,0,0],[9E9,9E9,9E9,9E9,9E9,9E9]];
  VAR shapedata area;
  VAR wztemporary area_zone;

  PROC main()
    WZLimJointDef\Inside, area, low_side, high_side;
    WZDOSet\Temp\Inside, area_zone, area, do_rob1_in, 1;
    MoveAbsJ in_area\NoEOffs, v5000, fine, tool0;
    TPWrite "rob1 in: "\Num:=do_rob1_in;
    MoveAbsJ home\NoEOffs, v5000, fine, tool0;
    TPWrite "rob1 in: "\Num:=do_rob1_in;
    rob1_done := TRUE;
  ENDPROC
ENDMODULE
