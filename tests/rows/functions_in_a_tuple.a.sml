val f = fn x => x
val g = fn y => (f, y, ())