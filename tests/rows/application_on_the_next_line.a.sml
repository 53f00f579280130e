val a = 1
val b =
  a 2