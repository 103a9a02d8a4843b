MODULE M
VAR num n;
VAR bool b;
VAR string s;
VAR jointtarget j;
PROC main()
TPWrite ""\Num:=n;
TPWrite ""\Bool:=b;
TPWrite s + "|";
TPWrite ""\Num:=j.robax.rax_6;
ENDPROC
ENDMODULE
