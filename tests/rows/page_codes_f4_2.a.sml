fun head x :: rest = x
