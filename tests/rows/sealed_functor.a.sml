functor F (X : sig type t end) :> sig type u val v : u end = struct type u = int val v = 3 end
structure A = F (struct type t = bool end)
val w = A.v