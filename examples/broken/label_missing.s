start: jal ra, nowhere
 ebreak
