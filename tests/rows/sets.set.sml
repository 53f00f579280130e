functor Set (Key : ORDER) :> sig
  type set
  val empty : set
  val add : Key.t * set -> set
  val has : Key.t * set -> bool
end = struct
  datatype set = Empty | Node of set * Key.t * set
  val empty = Empty
  fun add (x, Empty) = Node (Empty, x, Empty)
    | add (x, t as Node (l, y, r)) =
        if Key.less (x, y) then Node (add (x, l), y, r)
        else if Key.less (y, x) then Node (l, y, add (x, r))
        else t
  fun has (_, Empty) = false
    | has (x, Node (l, y, r)) =
        if Key.less (x, y) then has (x, l)
        else if Key.less (y, x) then has (x, r)
        else true
end
