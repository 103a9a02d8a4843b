MODULE Press
  PROC main()
    WaitDO do_go, 1;
    TPWrite "pressing";
    Set do_seen;
    WaitDO do_go, 0;
    Reset do_seen;
  ENDPROC
ENDMODULE
