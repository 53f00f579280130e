structure S : sig type 'a t = 'a list end = struct type ''a t = ''a list end
