fun f 0 = 1 | f n = 2
