(* a maker for larger maps: a search tree *)
functor TreeMap (K : KEY) :> MAP where type key = K.key = struct
  type key = K.key
  datatype 'a map = Leaf | Node of 'a map * key * 'a * 'a map
  val empty = Leaf
  fun insert (x, a, Leaf) = Node (Leaf, x, a, Leaf)
    | insert (x, a, Node (left, y, b, right)) =
        if K.less (x, y) then Node (insert (x, a, left), y, b, right)
        else if K.less (y, x) then Node (left, y, b, insert (x, a, right))
        else Node (left, x, a, right)
  fun find (_, Leaf, none) = none
    | find (x, Node (left, y, b, right), none) =
        if K.less (x, y) then find (x, left, none)
        else if K.less (y, x) then find (x, right, none)
        else b
  fun fold _ start Leaf = start
    | fold f start (Node (left, x, a, right)) = fold f (f (x, a, fold f start left)) right
end
