structure S :> sig type t val x : t end = struct type t = int val x = 3 end
val y = (S.x, 1)
val z = T.x
val w = S.y