MODULE M
FUNC string s()
TPWrite "s";
RETURN "sum ";
ENDFUNC
FUNC num t()
TPWrite "t";
RETURN 2;
ENDFUNC
PROC main()
! The text is evaluated first, and then the number that follows it; the other way round t would be written before s.
TPWrite s()\Num:=t();
! Also where the option is written first.
TPWrite\Num:=t(), s();
ENDPROC
ENDMODULE
