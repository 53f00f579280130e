infixr 6 ++
fun a ++ b = a * b
val x = 1 + (2 ++ 3)
