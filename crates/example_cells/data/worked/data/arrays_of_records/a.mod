MODULE M
VAR speeddata s{2} := [[1,2,3,4],[5,6,7,8]];
PROC main()
s{1}.v_ori := s{2}.v_leax;
s{2} := s{1};
TPWrite ""\Num:=s{2}.v_ori;
TPWrite ""\Num:=s{2}.v_tcp;
ENDPROC
ENDMODULE
