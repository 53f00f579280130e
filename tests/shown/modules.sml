(* the body has no value of this name *) structure Queue :> sig
  type t
  val empty : t
end = struct
  type t = int list
end
