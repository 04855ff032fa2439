# puts 7, 14, 21 and so on, and asks again where a put wasn't taken
loop: addiu r4, r4, 7
put:  syscall
      beq r2, r0, put
      beq r0, r0, loop
