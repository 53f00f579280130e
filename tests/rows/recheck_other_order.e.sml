val pair = (D.d, y)
