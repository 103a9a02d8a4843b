MODULE Rob1

  ! eax_a is the track, in millimetres. At this speed a setpoint is at most 500 millimetres away.
  CONST speeddata on_track := [500000,500,5000,1000];
  CONST jointtarget home := [[0,0,0,0,30,0],[0,9E9,9E9,9E9,9E9,9E9]];
  CONST jointtarget press := [[0,20,0,0,30,0],[1500,9E9,9E9,9E9,9E9,9E9]];

  PROC main()
    MoveAbsJ press\NoEOffs, on_track, fine, tool0;
    TPWrite "part in the press";
    MoveAbsJ home\NoEOffs, on_track, fine, tool0;
    Reset do_rob1_in;
  ENDPROC

ENDMODULE
