MODULE M
VAR shapedata s;
VAR wztemporary z;
PROC main()
WZDOSet\Temp\Inside, z, s, do_lamp, 1;
ENDPROC
ENDMODULE
