%%%
  VERSION:1
  LANGUAGE:ENGLISH
%%%

MODULE PalletData
  ! Tool, work objects and positions of the palletizer
  PERS tooldata tVacuum:=[TRUE,[[0,0,182.5],[1,0,0,0]],[4.2,[0,0,95],[1,0,0,0],0,0,0]];
  PERS wobjdata wobjConveyor:=[FALSE,TRUE,"",[[812.4,-402.1,305],[1,0,0,0]],[[0,0,0],[1,0,0,0]]];
  PERS wobjdata wobjPallet:=[FALSE,TRUE,"",[[-104,1180,-212],[0.7071,0,0,0.7071]],[[0,0,0],[1,0,0,0]]];
  PERS loaddata loadBox:=[12.5,[0,0,110],[1,0,0,0],0,0,0];

  CONST robtarget pHome:=[[905.2,0,1120],[0,0,1,0],[0,0,0,0],[9E9,9E9,9E9,9E9,9E9,9E9]];
  CONST robtarget pPick:=[[150,100,80],[0,0,1,0],[-1,0,-1,0],[9E9,9E9,9E9,9E9,9E9,9E9]];
  CONST robtarget pPlace:=[[100,150,90],[0,0,1,0],[0,0,0,0],[9E9,9E9,9E9,9E9,9E9,9E9]];
  CONST jointtarget jpPark:=[[0,-20,15,0,60,0],[9E9,9E9,9E9,9E9,9E9,9E9]];

  CONST speeddata vMaxBox:=[1500,300,5000,1000];
  CONST num nRows:=3;
  CONST num nColumns:=4;
  CONST num nBoxHeight:=220.5;
  PERS num nLayer:=0;
  PERS num nBoxesDone:=0;
  PERS num anOffset{3,4}:=[[0,0,0,0],[0,0,0,0],[0,0,0,0]];
  VAR bool bPalletFull:=FALSE;
ENDMODULE
