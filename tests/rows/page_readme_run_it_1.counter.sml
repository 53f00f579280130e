(* An abstract type: its users can't tell that a counter is a pair. *)
structure Counter :> sig
  type counter
  val start : counter
  val twice : counter -> counter * counter
end = struct
  type counter = int * int
  val start = (0, 1)
  val twice = fn c => (c, c)
end

val pair = Counter.twice
val swap = fn a => fn b => (b, a)
val both = (Counter.start, swap)
