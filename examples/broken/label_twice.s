start: ebreak
start: ebreak
