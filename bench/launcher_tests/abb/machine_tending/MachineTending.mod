MODULE MachineTending

  RECORD partdata
    string name;
    num program;
    num length;
  ENDRECORD

  PERS tooldata tGripper:=[TRUE,[[0,0,120],[1,0,0,0]],[2,[0,0,60],[1,0,0,0],0,0,0]];
  CONST partdata pdShaft:=["shaft",12,240];
  CONST partdata pdFlange:=["flange",14,85];
  CONST robtarget pInfeed:=[[620,-310,420],[0,0.7071,0.7071,0],[0,0,0,0],[9E9,9E9,9E9,9E9,9E9,9E9]];
  CONST robtarget pChuck:=[[1210.5,88,640],[0.5,0.5,0.5,-0.5],[0,0,1,0],[9E9,9E9,9E9,9E9,9E9,9E9]];
  CONST jointtarget jHome:=[[0,0,0,0,30,0],[9E9,9E9,9E9,9E9,9E9,9E9]];
  PERS partdata pdActual:=["shaft",12,240];
  VAR num nAnswer;
  VAR num nParts:=0;
  VAR errnum ERR_NO_PART:=-1;
  VAR bool bStop:=FALSE;

  PROC main()
    BookErrNo ERR_NO_PART;
    MoveAbsJ jHome,v500,fine,tGripper;
    TPReadFK nAnswer,"Which part?","Shaft","Flange",stEmpty,stEmpty,"Quit";
    TEST nAnswer
    CASE 1:
      pdActual:=pdShaft;
    CASE 2:
      pdActual:=pdFlange;
    CASE 5:
      Stop;
    ENDTEST
    WHILE NOT bStop DO
      rLoad;
      rUnload\bWash;
      nParts:=nParts+1;
      IF nParts MOD 10=0 AND NOT bStop rClean;
    ENDWHILE
  ERROR
    IF ERRNO=ERR_NO_PART THEN
      TPWrite "No part at the infeed";
      WaitTime 5;
      RETRY;
    ELSEIF ERRNO=ERR_WAIT_MAXTIME THEN
      ErrWrite "Timeout","The machine does not answer";
      RAISE;
    ENDIF
  ENDPROC

  PROC rLoad()
    IF TestDI(diPartThere)=FALSE RAISE ERR_NO_PART;
    MoveJ RelTool(pInfeed,0,0,-100),v1000,z20,tGripper;
    MoveL pInfeed,v100,fine,tGripper;
    rGrip TRUE;
    MoveL RelTool(pInfeed,0,0,-150),v500,z20,tGripper;
    WaitDI diDoorOpen,high;
    MoveJ pChuck,v500,fine,tGripper;
    WaitUntil diPartClamped=1\MaxTime:=10;
    rGrip FALSE;
    SetGO goPartProgram,pdActual.program;
    PulseDO\PLength:=0.5,doStartCycle;
  ENDPROC

  PROC rUnload(\switch bWash|switch bDry)
    WaitDI diDoorOpen,1;
    MoveJ pChuck,v500,fine,tGripper;
    rGrip TRUE;
    IF Present(bWash) MoveJ RelTool(pChuck,0,0,-200),v500,z50,tGripper;
    rGrip FALSE;
  ENDPROC

  PROC rGrip(bool bClose)
    IF bClose THEN
      SetDO doGripClose,1;
      SetDO doGripOpen,0;
    ELSE
      SetDO doGripClose,0;
      SetDO doGripOpen,1;
    ENDIF
    WaitTime 0.4;
  ENDPROC

  PROC rClean()
    TPWrite "Cleaning after "+ValToStr(nParts)+" parts";
    WaitTime 2;
  ENDPROC
ENDMODULE
