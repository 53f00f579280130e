structure S :> sig type t val a : t end = struct type t = int val a = 1 end
structure T = S
structure S = struct end
val z = T.a
structure T = struct end
val w = z
