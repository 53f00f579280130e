datatype d = D
val x = let val y = D in y end
