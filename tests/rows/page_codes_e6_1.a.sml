val x = let datatype d = D in D end
