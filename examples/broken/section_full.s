start: ebreak
 .zero 65533
