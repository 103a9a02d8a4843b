MODULE M
PROC main()
TPWrite ""\Num:=0xFF;
TPWrite ""\Num:=0o17;
TPWrite ""\Num:=0b101;
TPWrite ""\Num:=.5;
TPWrite ""\Num:=5.;
TPWrite ""\Num:=15e-1;
TPWrite ""\Num:=0.0005;
TPWrite ""\Num:=0.0004;
ENDPROC
ENDMODULE
