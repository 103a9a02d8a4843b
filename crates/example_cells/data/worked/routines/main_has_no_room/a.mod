MODULE M
PROC main()
VAR num a1{1000};
VAR num a2{1000};
VAR num a3{1000};
VAR num a4{1000};
VAR num a5{1000};
VAR num a6{1000};
VAR num a7{1000};
VAR num a8{1000};
VAR num a9{1000};
VAR num a10{1000};
VAR num a11{1000};
VAR num a12{1000};
VAR num a13{1000};
VAR num a14{1000};
VAR num a15{1000};
VAR num a16{1000};
VAR num a17{1000};
VAR num a18{1000};
VAR num a19{1000};
VAR num a20{1000};
VAR num a21{1000};
TPWrite "never";
ENDPROC
ENDMODULE
