MODULE Rob2

  CONST speeddata on_track := [500000,500,5000,1000];
  CONST jointtarget beside := [[0,0,0,0,30,0],[2200,9E9,9E9,9E9,9E9,9E9]];
  CONST jointtarget press := [[0,20,0,0,30,0],[1500,9E9,9E9,9E9,9E9,9E9]];

  ! Without the wait the arm would be stopped on its way into the middle.
  PROC main()
    MoveAbsJ beside\NoEOffs, on_track, fine, tool0;
    WaitDO do_rob1_in, 0;
    MoveAbsJ press\NoEOffs, on_track, fine, tool0;
    TPWrite "part out of the press";
  ENDPROC

ENDMODULE
