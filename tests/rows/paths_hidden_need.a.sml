structure S :> sig type t val a : t end = struct type t = int val a = 1 end
val x = S.a
