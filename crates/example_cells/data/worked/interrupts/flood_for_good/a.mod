MODULE M
VAR intnum i{51};
VAR intnum j{13};
TRAP t
TPWrite "never";
ENDTRAP
PROC main()
FOR k FROM 1 TO 51 DO
CONNECT i{k} WITH t;
ISignalDO do1, 1, i{k};
ENDFOR
FOR k FROM 1 TO 13 DO
CONNECT j{k} WITH t;
ISignalDI di1, 1, j{k};
ENDFOR
IDisable;
! 20 times 51 numbers wait: 1,020 of 1,024.
FOR k FROM 1 TO 20 DO
Set do1;
Reset do1;
ENDFOR
! The inputs begin with this output, one after each event of the task.
Set do2;
! Its Look (then di2 is 0), two reads (after the first di1 is 1: 13 more are 1,033, which is a flood; after the second di2 is 1),
! and the number is deleted, which takes 20 out of the queue. Then di2 is 0, a change, and yet the next Look is a flood.
! Were a change to tell anew whether there is a flood, the task would go on.
IDelete i{1 + 0 * (do2 + do2)};
TPWrite "never";
ENDPROC
ENDMODULE
