val f = fn x => (x, (x, 1), fn y => ())
val g = fn (x, y, f) => if x = y then [(x, f)] else [(y, fn n => n : int)]
val h = {b = 1.5, a = #"a", 1 = 0w1, 10 = "s", 2 = nil : (int -> int) list ref list}
type 'a fold = ('a * 'a -> 'a) -> 'a list -> 'a
