fun g 2 = (fn 2 => [])
val (1, f) = (1, fn 2 => 3)
val 1 = 2
val h = fn 1 => (fn 2 => 3) | _ => (fn 4 => 5)
