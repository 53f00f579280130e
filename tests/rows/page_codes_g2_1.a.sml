fun f 0 = 1 | f 1 2 = 3
