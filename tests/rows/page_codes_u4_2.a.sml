structure S :> sig eqtype t val a : t end = struct type t = int val a = 1 end
val b = S.a = S.a
