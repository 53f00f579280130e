fun f 0 n = n | f m n = m
