structure S :> sig eqtype t val a : t val f : t -> t end = struct type t = int val a = 3 fun f x = x end
