MODULE Other(READONLY)
  PERS num parts := 0;
  PERS bool lock;
  CONST tasks both{2} := [["A"], ["B"]];
  VAR syncident at_table;

  PROC main()
    VAR bool taken;
    WaitSyncTask at_table, both;
    taken := TestAndSet(lock);
    WHILE taken DO
      taken := TestAndSet(lock);
    ENDWHILE
    parts := parts + 1;
    lock := FALSE;
  ENDPROC
ENDMODULE
