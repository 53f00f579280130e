fun f x = let datatype d = D fun g D = () in g x end
