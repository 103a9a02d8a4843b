MODULE CornerZone

  PROC main()
    MoveAbsJ [[20,0,0,0,0,0],[9E9,9E9,9E9,9E9,9E9,9E9]]\NoEOffs, v1000, z10, tool0;
    MoveAbsJ [[40,0,0,0,0,0],[9E9,9E9,9E9,9E9,9E9,9E9]]\NoEOffs, v1000, fine, tool0;
  ENDPROC

ENDMODULE
