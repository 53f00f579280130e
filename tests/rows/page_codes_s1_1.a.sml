val x = (1, )
