structure P :> sig type ('a, 'b) pair val x : (int, bool) pair end = struct type ('a, 'b) pair = 'a * 'b val x = (1, true) end
type ('b, 'a) swapped = ('a, 'b) P.pair
type 'a same = ('a, 'a) P.pair
type ('c, 'd) short = ('c, 'd) P.pair
val y = P.x
