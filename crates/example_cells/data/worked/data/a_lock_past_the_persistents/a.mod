MODULE M
PERS jointtarget t{2};
PERS bool b{2};
VAR num i := 3;
PROC main()
WaitTestAndSet b{i};
ENDPROC
ENDMODULE
