MODULE Rob
  CONST jointtarget home := [[0,0,0,0,30,0],[9E9,9E9,9E9,9E9,9E9,9E9]];
  CONST jointtarget near := [[2,2,2,2,2,2],[9E9,9E9,9E9,9E9,9E9,9E9]];
  CONST jointtarget machine := [[12,6,0,0,30,0],[9E9,9E9,9E9,9E9,9E9,9E9]];
  VAR shapedata home_shape;
  VAR wzstationary at_home;

  PROC main()
    WZHomeJointDef\Inside, home_shape, home, near;
    WZDOSet\Stat, at_home\Inside, home_shape, do_door, 1;
    MoveAbsJ machine, v5000, fine, tool0;
    MoveAbsJ home, v5000, fine, tool0;
  ENDPROC
ENDMODULE
