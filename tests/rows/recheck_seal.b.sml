val y = S.f S.a
