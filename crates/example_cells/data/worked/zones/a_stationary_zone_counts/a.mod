MODULE M
VAR shapedata s;
VAR wztemporary y{10};
VAR wzstationary w;
PROC main()
WZLimJointDef\Inside, s, [[100,9E9,9E9,9E9,9E9,9E9],[9E9,9E9,9E9,9E9,9E9,9E9]], [[101,9E9,9E9,9E9,9E9,9E9],[9E9,9E9,9E9,9E9,9E9,9E9]];
WZLimSup\Stat, w, s;
FOR i FROM 1 TO 9 DO
WZLimSup\Temp, y{i}, s;
ENDFOR
TPWrite "ten";
WZFree y{9};
WZLimSup\Temp, y{10}, s;
TPWrite "ten again";
WZLimSup\Temp, y{9}, s;
ENDPROC
ENDMODULE
