MODULE M
! The whole part of 2.7 is 2: an axis moves 2 thousandths at most in a setpoint. Axis 1 moves 5, so there are 3 setpoints, since
! 5 / 2 is 2.5. They are at the nearest thousandths to 5 / 3, 10 / 3 and 15 / 3: 2, 3 and 5.
! A speed rounded to 3 would give 2 setpoints, at 3 (from 2.5) and 5.
VAR speeddata s := [2.7,500,5000,1000];
PROC main()
MoveAbsJ [[0.005,0,0,0,0,0],[9E9,9E9,9E9,9E9,9E9,9E9]], s, fine, tool0;
ENDPROC
ENDMODULE
