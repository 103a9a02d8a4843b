MODULE logger
  PERS string log_line := "";
  PERS bool log_ready := FALSE;
  VAR iodev file;

  PROC main()
    Open "HOME:" \File:="assembly.log", file \Append;
    WHILE TRUE DO
      WaitUntil log_ready;
      Write file, CDate() + " " + log_line;
      TPWrite log_line;
      log_ready := FALSE;
    ENDWHILE
  ERROR (ERR_FILEOPEN)
    TRYNEXT;
  ENDPROC
ENDMODULE
