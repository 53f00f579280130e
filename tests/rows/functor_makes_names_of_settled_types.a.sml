functor F () = struct local datatype d = D in val r = ref nil val g = (r := [D]) end end
structure A = F ()
structure B = F ()
val x = (A.r := !B.r)