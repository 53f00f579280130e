structure S :> sig type t val a : t val f : t -> t val b : int end = struct type t = int val a = 3 fun f x = x val b = 1 end
