val rec x = 3
