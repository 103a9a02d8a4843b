MODULE Palletizer
  VAR clock clkCycle;
  VAR num nCycleTime:=0;
  VAR intnum intVacuumLost;

  PROC main()
    rInit;
    WHILE TRUE DO
      IF bPalletFull THEN
        rChangePallet;
      ELSE
        rPickBox;
        rPlaceBox;
      ENDIF
    ENDWHILE
  ENDPROC

  PROC rInit()
    AccSet 80,80;
    VelSet 100,3000;
    ConfL\Off;
    Reset doVacuumOn;
    Set doConveyorRun;
    IDelete intVacuumLost;
    CONNECT intVacuumLost WITH trVacuumLost;
    ISignalDI diVacuumOK,0,intVacuumLost;
    MoveAbsJ jpPark\NoEOffs,v500,z50,tVacuum;
    TPErase;
    TPWrite "Palletizer ready";
  ENDPROC

  PROC rPickBox()
    ClkReset clkCycle;
    ClkStart clkCycle;
    MoveJ Offs(pPick,0,0,200),vMaxBox,z50,tVacuum\WObj:=wobjConveyor;
    WaitDI diBoxInPos,1\MaxTime:=30;
    MoveL pPick,v200,fine,tVacuum\WObj:=wobjConveyor;
    SetDO\SDelay:=0.1,doVacuumOn,1;
    WaitTime\InPos,0.3;
    GripLoad loadBox;
    MoveL Offs(pPick,0,0,300),v500,z20,tVacuum\WObj:=wobjConveyor;
  ENDPROC

  PROC rPlaceBox()
    VAR num nRow;
    VAR num nColumn;
    nRow:=nBoxesDone DIV nColumns;
    nColumn:=nBoxesDone MOD nColumns;
    MoveJ Offs(pPlace,nColumn*300,nRow*400,nLayer*nBoxHeight+250),vMaxBox,z50,tVacuum\WObj:=wobjPallet;
    MoveL Offs(pPlace,nColumn*300,nRow*400,nLayer*nBoxHeight),v200,fine,tVacuum\WObj:=wobjPallet;
    Reset doVacuumOn;
    WaitTime 0.2;
    GripLoad load0;
    MoveL Offs(pPlace,nColumn*300,nRow*400,nLayer*nBoxHeight+300),v800,z50,tVacuum\WObj:=wobjPallet;
    Incr nBoxesDone;
    IF nBoxesDone=nRows*nColumns THEN
      nBoxesDone:=0;
      Incr nLayer;
      IF nLayer>=4 bPalletFull:=TRUE;
    ENDIF
    ClkStop clkCycle;
    nCycleTime:=ClkRead(clkCycle);
    TPWrite "Cycle time: "\Num:=nCycleTime;
  ENDPROC

  PROC rChangePallet()
    MoveAbsJ jpPark\NoEOffs,v1000,fine,tVacuum;
    TPWrite "Change the pallet";
    WaitDI diPalletReady,1;
    nLayer:=0;
    bPalletFull:=FALSE;
  ENDPROC

  TRAP trVacuumLost
    StopMove;
    TPWrite "Vacuum lost at "+CTime();
    ExitCycle;
  ENDTRAP
ENDMODULE
