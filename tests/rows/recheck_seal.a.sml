structure S :> sig type t val a : t val f : t -> t end = struct type t = int val a = 3 fun f x = x end
