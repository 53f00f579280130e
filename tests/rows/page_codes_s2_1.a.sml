val x =
