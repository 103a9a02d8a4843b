MODULE DimRange

  ! Five values for the six places of a pallet.
  PERS num heights{6} := [10, 20, 30, 40, 50];

  PROC main()
    heights{1} := 0;
  ENDPROC

ENDMODULE
