structure S : sig type 'a t end = struct type 'a t = int end
