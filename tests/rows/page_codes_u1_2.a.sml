val a = fn n => n + 1
val b = a 2
