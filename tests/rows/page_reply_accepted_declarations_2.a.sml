structure S :> sig type t val x : t val f : t -> t * int end = struct
  type t = int
  val f = fn n => (n, 3)
  val x = 3
end
datatype 'a tree = Leaf | Node of 'a tree * 'a * 'a tree
type ('a, 'b) either = {left : 'a, right : 'b}
exception Bad of string and Worse
