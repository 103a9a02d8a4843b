MODULE common
  ! Shared by both robots
  PERS tasks task_list{2} := [["T_ROB1"],["T_ROB2"]];
  PERS bool part_at_table := FALSE;
  PERS num parts_done := 0;
  PERS pos handover := [650, 0, 900];
  CONST num max_parts := 100;

  FUNC bool enough()
    RETURN parts_done >= max_parts;
  ENDFUNC

  FUNC string report(num n, \num good)
    IF Present(good) RETURN "parts " + NumToStr(n,0) + "/" + NumToStr(good,0);
    RETURN "parts " + NumToStr(n,0);
  ENDFUNC
ENDMODULE
