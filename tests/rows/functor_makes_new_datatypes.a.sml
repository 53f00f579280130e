functor F () = struct datatype d = C fun g C = 0 end
structure A = F ()
structure B = F ()
val x = B.g A.C