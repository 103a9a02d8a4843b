MODULE Load
  PROC main()
    MoveAbsJ [[20,10,0,0,30,0],[9E9,9E9,9E9,9E9,9E9,9E9]]\NoEOffs, v5000, fine, tool0;
    WaitDO do_press, 0;
    MoveAbsJ [[50,10,0,0,30,0],[9E9,9E9,9E9,9E9,9E9,9E9]]\NoEOffs, v5000, fine, tool0;
  ENDPROC
ENDMODULE
