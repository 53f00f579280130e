val (x, y) = (1, 2)
