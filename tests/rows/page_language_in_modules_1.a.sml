datatype d = A | B
type e = d
signature S = sig datatype t = A | B end
signature T = S where type t = d
signature U = S where type t = e
