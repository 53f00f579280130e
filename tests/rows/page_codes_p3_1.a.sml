val 1 = 2
