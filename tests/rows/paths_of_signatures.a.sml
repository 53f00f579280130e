structure S :> sig type t val a : t end = struct type t = int val a = 1 end
signature G = sig type u val f : u -> S.t end
functor F (X : G) = struct val g = X.f datatype d = D of S.t end
