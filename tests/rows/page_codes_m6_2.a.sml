structure S :> sig val f : int -> int end = struct val f = fn n => n end
