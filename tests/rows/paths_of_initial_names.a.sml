structure S :> sig type t val a : t end = struct type t = int val a = 1 end
type int = S.t
val x = S.a
val y = 1
type real = S.t
structure S = struct end
val z = x
