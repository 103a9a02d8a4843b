MODULE M
VAR intnum first;
VAR intnum i{41};
TRAP waits
TPWrite "never";
ENDTRAP
TRAP busy
! While this trap runs, all that fires waits: 24 times 41 are 984, and the 25th time makes 1,025, one more than there is room for.
! So the Look of the Reset that follows is a flood. If none came in a trap, the trap would run to its end.
FOR k FROM 1 TO 25 DO
Set do1;
Reset do1;
ENDFOR
TPWrite "never";
ENDTRAP
PROC main()
FOR k FROM 1 TO 41 DO
CONNECT i{k} WITH waits;
ISignalDO do1, 1, i{k};
ENDFOR
CONNECT first WITH busy;
ISignalDO do2, 1, first;
Set do2;
TPWrite "never";
ENDPROC
ENDMODULE
