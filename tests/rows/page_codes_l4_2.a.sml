val x = 1.0
