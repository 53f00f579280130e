val x = "a
b"