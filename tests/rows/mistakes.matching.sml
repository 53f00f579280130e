structure S : sig val x : int val y : int end = struct val x = 1 end
