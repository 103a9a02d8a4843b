MODULE rob1
  TASK PERS tooldata grip1 := [TRUE,[[0,0,100],[1,0,0,0]],[1,[0,0,50],[1,0,0,0],0,0,0]];
  CONST robtarget take := [[500,200,300],[0,0,1,0],[0,0,0,0],[9E9,9E9,9E9,9E9,9E9,9E9]];
  VAR syncident sync_on;
  VAR syncident sync_off;
  VAR robtarget give;

  PROC main()
    VAR num i;
    give := CRobT(\Tool:=grip1\WObj:=wobj0);
    give.trans := handover;
    WHILE NOT enough() DO
      WaitDI di_part, 1;
      MoveL Offs(take,0,0,50), v1000, z10, grip1;
      MoveL take, v100, fine, grip1;
      Set do_gripper_1;
      WaitSyncTask sync_on, task_list\TimeOut:=60;
      SyncMoveOn sync_on, task_list;
      MoveL give\ID:=10, v500, fine, grip1;
      SyncMoveOff sync_off;
      part_at_table := TRUE;
      WaitUntil part_at_table = FALSE;
      Reset do_gripper_1;
      parts_done := parts_done + 1;
      TPWrite report(parts_done\good:=parts_done);
      IF parts_done MOD 25 = 0 AND NOT enough() TPWrite "quarter";
    ENDWHILE
  ENDPROC
ENDMODULE
