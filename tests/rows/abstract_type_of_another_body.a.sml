structure S :> sig type t val a : t val f : t -> t end = struct datatype p = P datatype q = Q type t = int * bool val a = (3, true) fun f (x, b) = (x, b) end
val y = S.f S.a
val z = S.a + 1