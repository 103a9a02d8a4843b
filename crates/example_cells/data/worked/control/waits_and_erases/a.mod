MODULE M
VAR num n;
PROC main()
WaitTime 0.5;
TPErase;
WaitTime 1 / (n + 1);
TPWrite "end";
ENDPROC
ENDMODULE
