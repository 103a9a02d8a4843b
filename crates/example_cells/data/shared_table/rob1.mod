MODULE Rob1

  ! The post stands where axis 1 is from 10 to 15 degrees and axis 2 within 5.
  CONST jointtarget post_low := [[10,-5,9E9,9E9,9E9,9E9],[9E9,9E9,9E9,9E9,9E9,9E9]];
  CONST jointtarget post_high := [[15,5,9E9,9E9,9E9,9E9],[9E9,9E9,9E9,9E9,9E9,9E9]];
  CONST jointtarget home := [[0,0,0,0,0,0],[9E9,9E9,9E9,9E9,9E9,9E9]];
  CONST jointtarget over_home := [[0,10,0,0,0,0],[9E9,9E9,9E9,9E9,9E9,9E9]];
  CONST jointtarget at_table := [[40,10,0,0,0,0],[9E9,9E9,9E9,9E9,9E9,9E9]];
  VAR shapedata post;
  VAR wzstationary post_zone;

  ! Brings a part to the table, round the post, and then leaves the table to ROB2.
  PROC main()
    WZLimJointDef\Inside, post, post_low, post_high;
    WZLimSup\Stat, post_zone, post;
    MoveAbsJ over_home, vmax, fine, tool0;
    MoveAbsJ at_table, vmax, fine, tool0;
    TPWrite "part on the table";
    MoveAbsJ over_home, vmax, fine, tool0;
    Reset do_rob1_in;
    MoveAbsJ home, vmax, fine, tool0;
  ENDPROC

ENDMODULE
