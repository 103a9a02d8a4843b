MODULE rob2
  TASK PERS tooldata grip2 := [TRUE,[[0,0,100],[1,0,0,0]],[1,[0,0,50],[1,0,0,0],0,0,0]];
  CONST jointtarget wait_pos := [[10,0,0,0,0,0],[9E9,9E9,9E9,9E9,9E9,9E9]];
  CONST robtarget put := [[400,-300,200],[0,0,1,0],[0,0,0,0],[9E9,9E9,9E9,9E9,9E9,9E9]];
  VAR syncident sync_on;
  VAR syncident sync_off;

  PROC main()
    ActUnit STN1;
    WHILE NOT enough() DO
      MoveAbsJ wait_pos, v500, z50, grip2;
      WaitSyncTask sync_on, task_list;
      SyncMoveOn sync_on, task_list;
      MoveL Offs(handover_pos(),0,0,20)\ID:=10, v500, fine, grip2;
      SyncMoveOff sync_off;
      WaitUntil part_at_table;
      Set do_gripper_2;
      part_at_table := FALSE;
      MoveJ put, v1000, fine, grip2;
      Reset do_gripper_2;
    ENDWHILE
  ENDPROC

  FUNC robtarget handover_pos()
    VAR robtarget p;
    p := put;
    p.trans := handover;
    RETURN p;
  ENDFUNC
ENDMODULE
