val (x, x) = (1, 2)
