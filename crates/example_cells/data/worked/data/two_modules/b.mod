MODULE N
LOCAL VAR num n := 2;
VAR num shared;
PROC other()
n := n + 20;
shared := n;
ENDPROC
ENDMODULE
