MODULE M
VAR shapedata s;
VAR wztemporary z;
VAR wzstationary w;
PROC main()
WZLimSup\Temp, z, s;
ENDPROC
ENDMODULE
