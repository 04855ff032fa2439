# counts the turns of its loop in register 2, for ever
loop: addiu r2, r2, 1
      j loop
