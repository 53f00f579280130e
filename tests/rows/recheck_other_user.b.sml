val y = S.a
