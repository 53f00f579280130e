val rec f = (fn 0 => 1 | n => n * f (n - 1)) : int -> int
