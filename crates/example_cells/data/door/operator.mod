MODULE Operator
  PROC main()
    WaitDO do_door, 0;
    TPWrite "door shut";
    WaitDO do_door, 1;
    TPWrite "door open";
  ENDPROC
ENDMODULE
