MODULE M
VAR shapedata s;
VAR wztemporary z;
PROC main()
WZDOSet\Temp\Inside, z, s, do_lamp, 2;
ENDPROC
ENDMODULE
