MODULE M
VAR num n := 1;
FUNC num f()
n := 10;
RETURN 5;
ENDFUNC
PROC main()
! The value is evaluated first, which makes n 10; then n is read: 10 + 5. Read before the value, n would come to 1 + 5.
Add n, f();
TPWrite "n="\Num:=n;
ENDPROC
ENDMODULE
