val x = 3
val rec y = fn () => 3
