structure S :> sig eqtype t val a : t end = struct
 datatype t = P | Q
 val a = Q
 end