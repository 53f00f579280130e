structure S :> sig val f : int -> int end = struct val f = 3 end
