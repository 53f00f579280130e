val x = (y : nope, 1 + true)
val (a, b) = (1, 2, 3)
