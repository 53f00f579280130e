val x = 1.
