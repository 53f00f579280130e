val x = = 3
