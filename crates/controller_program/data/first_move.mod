MODULE FirstMove

  ! Turns axis 1 slowly, then three axes at full speed.
  PROC main()
    MoveAbsJ [[2.5,0,0,0,0,0],[9E9,9E9,9E9,9E9,9E9,9E9]]\NoEOffs, v1000, fine, tool0;
    MoveAbsJ [[2.5,-1.25,0,0,30,0],[9E9,9E9,9E9,9E9,9E9,9E9]]\NoEOffs, vmax, fine, tool0;
  ENDPROC

ENDMODULE
