datatype d = D
fun f x = let fun g D = () in g x end
