structure S : sig datatype d = A | B end = struct datatype d = A | B end
