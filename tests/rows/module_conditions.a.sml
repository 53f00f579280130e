signature T0 = sig type t val x : t end
structure A0 = struct val x = 1 type t = int end
structure A1 = Nope
structure A2 = A0.B.C
structure A3 = A0
structure A4 = Nope : T9
structure A5 = A0 : T9
structure A6 : T0 = struct end
structure A7 : T0 = struct type t = int end
structure A8 : T0 = A0
structure A9 :> T0 = A0
structure B0 : T0 = struct type t = int val x = true end
structure B1 : T0 = struct type 'a t = 'a val x = 1 end
structure B2 : sig eqtype t end = struct type t = real end
structure B3 : sig type t = int end = struct type t = bool end
structure B4 : sig datatype d = A | B end = struct datatype d = A end
structure B5 : sig exception X end = struct val X = 1 end
structure B6 : sig type 'a t = 'a end = struct type t = int end
structure B7 : sig structure S : sig val x : int end end = struct end
structure B8 : sig structure S : sig val x : int end end = struct structure S = struct end end
structure C1 = F9 (A0)
functor F0 (X : T0) = struct val y = X.x end
structure C2 = F0 (Nope)
structure C3 = F0 (struct end)
structure C4 = F0 (A0)
structure C5 = F0 (struct type t = int val x = true end)
signature D1 = T9 where type t = int
signature D2 = T0 where type S.t = int
signature D3 = T0 where type u = int
signature D4 = T0 where type t = nope
signature D5 = T0 where type 'a t = int
signature D6 = sig type t = int end where type t = int
signature D7 = sig eqtype t end where type t = int -> int
signature D8 = sig datatype d = C end where type d = int
signature D9 = T0 where type t = 'a
signature E0 = T0 where type t = int
signature E1 = sig val x : int val x : int end
signature E2 = sig type t type u = t end
signature E3 = sig type t sharing type t = S.u end
signature E4 = sig type t sharing type t = u end
signature E5 = sig type t type u = int sharing type t = u end
signature E6 = sig type t type 'a u sharing type t = u end
signature E7 = sig datatype t = A datatype u = B sharing type t = u end
signature E8 = sig structure A : T0 sharing A = B end
signature E9 = sig structure A : sig type t end structure B : sig type 'a t end sharing A = B end
signature G0 = sig structure A : T0 structure B : T0 sharing A = B end
signature G1 = sig val x : nope end
signature G2 = sig exception X of 'a end
signature G3 = sig val x : 'a -> 'a exception X of int end
signature G4 = sig include T9 end
signature G5 = sig include T0 val y : t end
signature G6 = sig datatype t = datatype nope end
functor H1 (X : T9) = struct end
functor H2 (X : T0) = Nope
functor H3 (X : T0) :> T0 = X
structure I1 = H3 (A0)
structure I2 = let structure L = A0 in L end
local structure L = A0 in structure I3 = L end
open Nope
structure I4 = struct val r = ref nil end
structure I5 : sig val r : int list ref end = struct val r = ref nil end
