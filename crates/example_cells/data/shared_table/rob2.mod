MODULE Rob2

  CONST jointtarget at_table := [[50,0,0,0,0,0],[9E9,9E9,9E9,9E9,9E9,9E9]];

  ! Goes to the table too early, and is stopped before it. With `WaitDO do_rob1_in, 0;` before its move it comes there.
  PROC main()
    TPWrite "to the table";
    MoveAbsJ at_table, vmax, fine, tool0;
    TPWrite "at the table";
  ENDPROC

ENDMODULE
