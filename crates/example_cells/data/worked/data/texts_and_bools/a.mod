MODULE M
VAR string names{2} := ["left", "right"];
VAR bool full{2};
PROC main()
full{2} := names{2} = "right";
TPWrite names{1}\Bool:=full{1};
TPWrite names{2}\Bool:=full{2};
ENDPROC
ENDMODULE
