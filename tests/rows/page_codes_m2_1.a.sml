structure S : sig type t end = struct type 'a t = int end
