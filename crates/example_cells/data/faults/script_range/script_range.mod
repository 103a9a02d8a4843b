MODULE ScriptRange

  PROC main()
    MoveAbsJ [[10,0,0,0,0,0],[9E9,9E9,9E9,9E9,9E9,9E9]]\NoEOffs, v1000, fine, tool0;
  ENDPROC

ENDMODULE
