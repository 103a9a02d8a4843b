MODULE M
VAR shapedata s;
VAR wztemporary y{11};
PROC main()
WZLimJointDef\Inside, s, [[100,9E9,9E9,9E9,9E9,9E9],[9E9,9E9,9E9,9E9,9E9,9E9]], [[101,9E9,9E9,9E9,9E9,9E9],[9E9,9E9,9E9,9E9,9E9,9E9]];
FOR i FROM 1 TO 9 DO
WZLimSup\Temp, y{i}, s;
ENDFOR
WZDOSet\Temp\Inside, y{10}, s, do_lamp, 1;
WZDOSet\Temp\Inside, y{11}, s, do_lamp, 1;
ENDPROC
ENDMODULE
