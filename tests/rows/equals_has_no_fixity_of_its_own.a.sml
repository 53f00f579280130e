infix =
