val 'a h = fn (x : 'a) => x + 1
