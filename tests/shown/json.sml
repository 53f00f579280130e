val x = y
  val z = x
fun head (first :: _) = first
