structure S : sig eqtype t end = struct type t = int -> int end
