val y = x
