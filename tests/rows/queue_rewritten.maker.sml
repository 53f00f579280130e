(* A queue is a front and a reversed back. *)
structure Queue :> sig
  type 'a queue
  exception Empty
  val empty : 'a queue
  val add : 'a * 'a queue -> 'a queue
  val next : 'a queue -> 'a * 'a queue
end = struct
  datatype 'a queue = Q of 'a list * 'a list
  exception Empty
  val empty = Q (nil, nil)
  fun add (x, Q (front, back)) = Q (front, x :: back)
  fun next (Q (x :: front, back)) = (x, Q (front, back))
    | next (Q (nil, nil)) = raise Empty
    | next (Q (nil, back)) = next (Q (rev back, nil))
end
