(* A queue is one list. *)
structure Queue :> sig
  type 'a queue
  exception Empty
  val empty : 'a queue
  val add : 'a * 'a queue -> 'a queue
  val next : 'a queue -> 'a * 'a queue
end = struct
  type 'a queue = 'a list
  exception Empty
  val empty = nil
  fun add (x, q) = q @ [x]
  fun next (x :: q) = (x, q)
    | next nil = raise Empty
end
