MODULE Unload
  PROC main()
    MoveAbsJ [[60,10,0,0,30,0],[9E9,9E9,9E9,9E9,9E9,9E9]]\NoEOffs, v5000, fine, tool0;
  ENDPROC
ENDMODULE
