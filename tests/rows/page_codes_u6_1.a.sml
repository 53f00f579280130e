val g = fn {a, ...} => a
