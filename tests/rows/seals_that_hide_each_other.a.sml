structure S :> sig type t val x : t end = struct type t = int val x = 1 end
val a = S.x
structure S :> sig type t val x : t end = struct type t = S.t val x = S.x end
val b = (a, S.x, a, fn z => z)
structure T :> sig type t val x : t val f : S.t -> t end = struct type t = S.t val x = b val f = fn s => s end
structure T :> sig type t val x : t val f : S.t -> t end = struct type t = S.t val x = S.x val f = fn s => s end
val c = (T.f, T.x, S.x)
