structure S :> sig type t val a : t end = struct type t = int val a = 1 end
structure S' = S
val x = S.a
