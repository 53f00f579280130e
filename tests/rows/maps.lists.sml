(* the simplest maker: a list of pairs, the newest first *)
functor ListMap (K : KEY) :> MAP where type key = K.key = struct
  type key = K.key
  type 'a map = (key * 'a) list
  fun same (x, y) = not (K.less (x, y) orelse K.less (y, x))
  val empty = nil
  fun insert (x, a, nil) = [(x, a)]
    | insert (x, a, (y, b) :: rest) = if same (x, y) then (x, a) :: rest else (y, b) :: insert (x, a, rest)
  fun find (_, nil, none) = none
    | find (x, (y, b) :: rest, none) = if same (x, y) then b else find (x, rest, none)
  fun fold _ start nil = start
    | fold f start ((x, a) :: rest) = fold f (f (x, a, start)) rest
end
