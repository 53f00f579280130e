val 1 x = 2
