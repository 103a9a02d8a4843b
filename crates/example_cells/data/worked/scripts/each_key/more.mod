MODULE More
PERS string word;
ENDMODULE
