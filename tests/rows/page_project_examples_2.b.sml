val x = true
