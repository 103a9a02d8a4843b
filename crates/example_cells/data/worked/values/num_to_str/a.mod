MODULE M
VAR num x := -0.05;
PROC main()
TPWrite NumToStr(2.5, 0) + " " + NumToStr(1.25, 1) + " " + NumToStr(3, 2) + " " + NumToStr(1.2345, 9);
TPWrite NumToStr(x, 1) + " " + NumToStr(x, -4) + " " + NumToStr(7, 1.9);
ENDPROC
ENDMODULE
