functor G (X : sig type t val x : t end) = struct val y = X.x end
structure B = G (struct type t = int val x = 1 end)
structure C = G (struct type t = int end)