infixr 6 ++ val x = 1 + 2 ++ 3
