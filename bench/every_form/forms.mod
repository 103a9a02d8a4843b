%%%
  VERSION:1
%%%
MODULE Forms(NOVIEW, NOSTEPIN)
  ! Every statement, operator and instruction.
  CONST num most := 3;
  CONST num heights{most} := [10, 10 + 15, 2 * 0xA];
  CONST tasks both{2} := [["A"], ["B"]];
  CONST jointtarget home := [[0,10,-5.25,0,30,0],[9E9,9E9,9E9,9E9,9E9,9E9]];
  CONST speeddata quick := [10000,500,5000,1000];
  PERS num parts := 0;
  PERS bool full{2} := [FALSE, TRUE];
  PERS bool lock := FALSE;
  PERS string label := "none ";
  PERS jointtarget places{2};
  TASK PERS num kept := 2;
  LOCAL VAR num tries := 0;
  VAR bool ready;
  VAR string line := "he said ""go"" \\ \41";
  VAR robjoint axes;
  VAR extjoint outside;
  VAR intnum lamp_on;
  VAR intnum part_seen;
  VAR intnum counted;
  VAR shapedata shape;
  VAR wztemporary zone;
  VAR wztemporary door;
  VAR wzstationary fixed;
  VAR syncident at_table;

  PROC main()
    VAR jointtarget here;
    CONST num one := 1;
    TPErase;
    WaitTime 0.5;
    CONNECT lamp_on WITH see_lamp;
    CONNECT part_seen WITH see_part;
    CONNECT counted WITH see_count;
    ISignalDO\Single, do_lamp, 0, lamp_on;
    ISignalDI di_part, 1, part_seen;
    IPers parts, counted;
    ISleep counted;
    WZHomeJointDef\Outside, shape, [[0,0,0,0,0,0],[9E9,9E9,9E9,9E9,9E9,9E9]], [[360,360,9E9,9E9,9E9,9E9],[9E9,9E9,9E9,9E9,9E9,9E9]];
    WZLimSup\Stat, fixed, shape;
    WZLimJointDef\Inside, shape, [[200,9E9,9E9,9E9,9E9,9E9],[9E9,9E9,9E9,9E9,9E9,9E9]], [[9E9,300,9E9,9E9,9E9,9E9],[9E9,9E9,9E9,9E9,9E9,9E9]];
    WZLimSup\Temp, zone, shape;
    WZDOSet\Temp\Inside, door, shape, do_door, 1;
    WZDisable zone;
    WZEnable zone;
    MoveAbsJ home\NoEOffs, quick, fine, tool0\WObj:=wobj0;
    here := CJointT();
    axes := here.robax;
    axes.rax_6 := -axes.rax_2 / 4;
    outside := here.extax;
    here.robax := axes;
    places{one + 1} := here;
    places{1}.robax.rax_1 := places{2}.robax.rax_2;
    MoveAbsJ here, v7000, fine, tool0;
    WZFree zone;
    FOR i FROM 1 TO most DO
      IF i = 1 THEN
        tries := tries + heights{i} DIV 3 - heights{i} MOD 3;
      ELSEIF i >= 3 OR i < 0 THEN
        Add tries, i;
      ELSE
        Incr tries;
      ENDIF
    ENDFOR
    FOR i FROM 3 TO 1 STEP -1 DO
      Decr tries;
    ENDFOR
    WHILE tries > 5 AND (NOT ready) DO
      tries := tries - 2.5;
      IF tries <= 5 XOR ready GOTO done;
    ENDWHILE
    done:
    TEST StrLen(line + label)
    CASE 1, 2:
      ready := FALSE;
    DEFAULT:
      ready := axes <> here.robax OR line = "x" OR TestDI(di_part) = FALSE;
    ENDTEST
    work most, tries, line, lock;
    line := names_of(2) + NumToStr(Abs(-1.25), 2) + NumToStr(Trunc(2.75), 0) + NumToStr(Dim(heights, 1), 0);
    TPWrite line;
    TPWrite "tries "\Num:=tries;
    TPWrite label\Bool:=ready;
    WaitUntil parts > 0 OR di_part = 1;
    WaitSyncTask at_table, both;
    WaitTestAndSet lock;
    parts := parts + kept;
    lock := FALSE;
    full{1} := TestAndSet(full{2});
    IDisable;
    Reset do_lamp;
    IEnable;
    WaitDO do_lamp, 0;
    Set do_lamp;
    SetDO do_lamp, DOutput(do_lamp) - 1;
    WaitDI di_part, 0;
    IWatch counted;
    Clear kept;
    parts := kept;
    IDelete counted;
    EXIT;
  ERROR
    TEST ERRNO
    CASE ERR_DIVZERO:
      TRYNEXT;
    CASE 41:
      kept := 1;
      RETRY;
    ENDTEST
    RAISE;
  ENDPROC
ENDMODULE
