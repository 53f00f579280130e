val x = 1 + true
