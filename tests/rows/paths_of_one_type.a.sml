structure S :> sig type t type u sharing type t = u val x : t end = struct type t = int type u = int val x = 1 end
val y = S.x
type a = S.u
val z = S.x
