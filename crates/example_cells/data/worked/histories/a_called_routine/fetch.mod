MODULE Fetch
  VAR num tries := 0;

  FUNC num fetched(num start)
    IF tries < 2 RAISE 41;
    RETURN start + tries;
  ENDFUNC
ENDMODULE
