val h = fn (x : int) => x + 1
