structure S :> sig type t val x : t end = struct type t = int val y = 3 end
