structure S : sig type t = int end = struct type t = bool end
