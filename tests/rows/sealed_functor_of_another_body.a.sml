functor F (X : sig type t end) :> sig type u val v : u end = struct datatype e = E of X.t type u = X.t list val v = nil end
structure A = F (struct type t = bool end)
val w = A.v