signature S = sig type t datatype d = D of t end
signature P = sig structure A : S structure B : S sharing A = B end
signature T = sig type t datatype u = U of t end
structure A = struct type t = int datatype u = U of t end
signature V = T where type u = A.u where type t = A.t
signature W = T where type t = A.t where type u = A.u
structure B : T where type u = A.u = struct type t = bool datatype u = datatype A.u end
signature X = sig structure P : sig datatype a = A of int end structure Q : sig datatype a = A of bool end sharing type P.a = Q.a end
signature Y = sig structure P : sig datatype a = A | B end structure Q : sig datatype a = A end sharing P = Q end
signature Z = sig structure P : sig datatype a = A of b and b = B of a end structure Q : sig datatype a = A of b and b = B of a end sharing P = Q end
