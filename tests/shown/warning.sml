val (x, 1) = (2, 3)
fun first (x :: _) = x
  | first (x :: y :: _) = y
