val f = fn 1.5 => 0
