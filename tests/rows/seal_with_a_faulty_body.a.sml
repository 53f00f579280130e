structure S :> sig type u val k : u end = struct type u = int val k = 1 end
structure S :> sig type t val x : int -> int end = struct type t = int val x = fn n => missing end
val a = S.k
val b = S.x
structure T :> sig type t val x : t end = struct type t = int val x = 2 end
val c = (S.k, T.x)
