MODULE M
VAR string s := "abc";
VAR num a{7};
PROC main()
TPWrite ""\Num:=Abs(-3.5);
TPWrite ""\Num:=Abs(3.5);
TPWrite ""\Num:=Trunc(2.75);
TPWrite ""\Num:=Trunc(-2.75);
TPWrite ""\Num:=StrLen(s);
TPWrite ""\Num:=StrLen("");
TPWrite ""\Num:=Dim(a, 1);
ENDPROC
ENDMODULE
