structure S : sig type t end = struct type t = bool end
