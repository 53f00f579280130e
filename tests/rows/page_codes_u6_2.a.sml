val g = fn {a, ...} : {a : int, b : int} => a
