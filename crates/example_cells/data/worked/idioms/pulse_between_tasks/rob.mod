MODULE Rob
  PROC main()
    Set do_go;
    WaitDO do_seen, 1;
    Reset do_go;
    WaitDO do_seen, 0;
    TPWrite "pulse over";
  ENDPROC
ENDMODULE
