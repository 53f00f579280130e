structure A : sig type t = int end = struct type t = bool end
structure B : sig datatype d = X | Y of int end = struct datatype d = X end
structure C : sig eqtype t end = struct type t = int -> int end
structure D :> sig val f : int -> int end = struct val f = 3 end
structure E : sig structure In : sig type 'a t end end = struct structure In = struct type t = int end end
structure F : sig exception X end = struct val X = 3 end
signature G = sig datatype d = X end where type d = int
signature H = sig datatype a = X datatype b = Y sharing type a = b end
functor I (J : sig val x : 'a -> 'a end) = struct end
structure K = I (struct val x = fn n => n + 1 end)
structure L = struct
  val r = ref nil
  val u = r := [1]
  structure M : sig val r : string list ref end = struct val r = r end
end
signature N = sig
  structure P : sig structure Q : sig datatype t = X end end
  structure R : sig structure Q : sig datatype t = Y end end
  sharing P = R
end
signature O = sig
  structure P : sig type a end
  structure Q : sig datatype b = X end
  structure R : sig type a datatype b = Y end
  sharing P = Q = R
end
