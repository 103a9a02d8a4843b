MODULE M
VAR num a{2} := [1, 1];
PROC main()
FOR i FROM 1 TO 2 DO
Add a{i}, i;
Incr a{3 - i};
ENDFOR
TPWrite ""\Num:=a{1};
TPWrite ""\Num:=a{2};
ENDPROC
ENDMODULE
