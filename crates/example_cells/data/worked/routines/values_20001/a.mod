MODULE M
! A frame of p has 1,000 values, its parameter and 999 elements; one of q has one.
PROC p(num n)
VAR num a{999};
IF n > 1 p n - 1;
ENDPROC
PROC q()
VAR num x;
p 20;
TPWrite "never";
ENDPROC
PROC main()
! Twenty frames of p are 20,000 values: there is room for just these.
p 20;
TPWrite "20000";
! With that of q they are 20,001, and the last call of p is too many.
q;
ENDPROC
ENDMODULE
