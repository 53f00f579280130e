structure S :> sig val x : t end = struct val x = 1 end
