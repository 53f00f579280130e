local in infix 5 ## fun a ## b = (a, b) end
val pair = op ## (1, 2)
val again = 1 ## 2
