MODULE Weld
  CONST seamdata sm1:=[0.2,0.05,[0,0,0,0,0,0,0,0,0],0,0,0,0,0,[0,0,0,0,0,0,0,0,0],0,0,[0,0,0,0,0,0,0,0,0],0,0,[0,0,0,0,0,0,0,0,0],0.5];
  CONST welddata wd1:=[9,0,[4,0,0,22,0,0,0,0,0],[0,0,0,0,0,0,0,0,0]];
  CONST robtarget pStart:=[[1000,-200,700],[0,0.7071,-0.7071,0],[0,0,0,0],[9E9,9E9,9E9,9E9,9E9,9E9]];
  CONST robtarget pEnd:=[[1000,200,700],[0,0.7071,-0.7071,0],[0,0,0,0],[9E9,9E9,9E9,9E9,9E9,9E9]];
  CONST jointtarget jpSafe:=[[0,-35,20,0,75,0],[9E9,9E9,9E9,9E9,9E9,9E9]];
  PERS tooldata tTorch:=[TRUE,[[12,0,380],[0.9239,0,0.3827,0]],[3.8,[0,0,120],[1,0,0,0],0,0,0]];
  VAR triggdata trFlow;
  VAR bool bSideA:=TRUE;
  PERS num nSeams:=0;
  CONST string stText:="Schweißzelle";
  VAR intnum intOperator;
  VAR num nStart;
  VAR num nNow;

  PROC main()
    CONNECT intOperator WITH trOperator;
    ISignalDI\Single,diOperator,edge,intOperator;
    MoveAbsJ jpSafe\NoEOffs,vmax,fine,tTorch\WObj:=wobj0;
    TriggIO trFlow,50\DOp:=doGas,1;
    FOR i FROM 1 TO 3 DO
      rWeld;
      rTurn;
    ENDFOR
    EXIT;
  ENDPROC

  PROC rWeld()
    MoveJ Offs(pStart,0,0,100),v1000,z10,tTorch;
    TriggL pStart,v500,trFlow,fine,tTorch;
    ArcLStart pStart,v100,sm1,wd1,fine,tTorch;
    ArcLEnd pEnd,v100,sm1,wd1,fine,tTorch;
    MoveL Offs(pEnd,0,0,100),v1000,z10,tTorch;
    nSeams:=nSeams+1;
    TPWrite "Seams: "\Num:=nSeams;
  ENDPROC

  PROC rTurn()
    MoveAbsJ jpSafe,v1000,fine,tTorch;
    nStart:=GetTime(\Sec);
    IF bSideA THEN
      Set doTable;
    ELSE
      Reset doTable;
    ENDIF
    WaitDI diFixtureClosed,1;
    bSideA:=NOT bSideA;
    nNow:=GetTime(\Sec);
    IF nNow-nStart>20 OR nNow<nStart TPWrite "slow table";
    WHILE bSideA AND NOT TestDI(diFixtureClosed) DO
      WaitTime 0.1;
    ENDWHILE
    %"rSide"+ValToStr(nSeams MOD 2)%;
  ENDPROC

  PROC rSide0()
    TPWrite "side A";
  ENDPROC

  PROC rSide1()
    TPWrite "side B";
  ENDPROC

  TRAP trOperator
    VAR num nKey;
    StopMove\Quick;
    StorePath;
    TPReadFK nKey,"Continue?","Yes","No","","","";
    IF nKey=2 EXIT;
    RestoPath;
    StartMove;
  ENDTRAP
ENDMODULE
