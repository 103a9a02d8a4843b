MODULE M
! A step of zero counts up.
PROC main()
! 2 has passed 1: no turn. Counted down it would not have, and a turn would come.
FOR i FROM 2 TO 1 STEP 0 DO
TPWrite "never";
EXIT;
ENDFOR
! 1 never passes 2: turn after turn, up to the GOTO. Counted down it has passed 2 at once.
FOR i FROM 1 TO 2 STEP 0 DO
TPWrite "turn";
GOTO out;
ENDFOR
TPWrite "never";
out:
TPWrite "end";
ENDPROC
ENDMODULE
