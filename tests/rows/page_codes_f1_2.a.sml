val x = 2 = 3
val y = op =
