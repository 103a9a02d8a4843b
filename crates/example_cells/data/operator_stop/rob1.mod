MODULE Rob1

  ! The table is where axis 1 is from 40 to 60 degrees.
  CONST jointtarget table_low := [[40,9E9,9E9,9E9,9E9,9E9],[9E9,9E9,9E9,9E9,9E9,9E9]];
  CONST jointtarget table_high := [[60,9E9,9E9,9E9,9E9,9E9],[9E9,9E9,9E9,9E9,9E9,9E9]];
  CONST jointtarget at_table := [[50,10,0,0,30,0],[9E9,9E9,9E9,9E9,9E9,9E9]];
  VAR shapedata table;
  VAR wztemporary table_zone;
  VAR intnum operator_comes;
  VAR intnum operator_leaves;

  ! Runs between two setpoints of the move, and counts from the next one on: the first setpoint whose way touches the
  ! table is not given, and the task ends with ZoneStop. With `WaitDI di_operator, 0;` in place of WZEnable the arm would
  ! stand still until the operator has left.
  TRAP close_table
    WZEnable table_zone;
    Set do_lamp;
    TPWrite "operator at the table";
  ENDTRAP

  TRAP open_table
    WZDisable table_zone;
    Reset do_lamp;
    TPWrite "table free";
  ENDTRAP

  PROC main()
    WZLimJointDef\Inside, table, table_low, table_high;
    WZLimSup\Temp, table_zone, table;
    WZDisable table_zone;
    CONNECT operator_comes WITH close_table;
    CONNECT operator_leaves WITH open_table;
    ISignalDI di_operator, 1, operator_comes;
    ISignalDI di_operator, 0, operator_leaves;
    MoveAbsJ at_table, vmax, fine, tool0;
    TPWrite "part on the table";
  ENDPROC

ENDMODULE
