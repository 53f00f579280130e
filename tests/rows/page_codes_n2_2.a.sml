structure S :> sig type t end = struct type t = int end
