start: ebreak
 .zero 2
 ebreak
