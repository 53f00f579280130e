val f = fn (x : ''a) => x
val g = f (fn y => y)
val h = fn (x : ''a) => (x : int -> int)
val k = fn (x : ''a) => (x : int)
fun ''a same (x : ''a, y) = x = y
val p = fn x => let val q = fn (y : ''b) => y in (q 1, q x) end
val 'a t = fn (x : 'a) => x = x
structure S : sig val f : ''a -> ''a end = struct val f = fn (x : 'a) => x end
structure T : sig val f : 'a -> 'a end = struct val f = fn (x : ''a) => x end
val u = fn (x : ''a list) => x = nil
