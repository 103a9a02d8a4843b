MODULE NoName

  ! A place of a tool in space: the type is not there.
  CONST robtarget over := [[600,0,800],[1,0,0,0],[0,0,0,0],[9E9,9E9,9E9,9E9,9E9,9E9]];

  PROC main()
    MoveJ over, v1000, fine, tool0;
  ENDPROC

ENDMODULE
