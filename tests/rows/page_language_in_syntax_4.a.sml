val a = 1
val b = )
val c = 2
