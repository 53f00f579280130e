val x = 1

val s = "no end
