val z = T.U.x
