val a = size 3
val b = 3 : string
fun c 0 = "a"
  | c n = n
val d = if true then 1 else "x"
val e = {x = 1} : {y : int}
val (f, g) = 3
fun h (x : bool as (y : int)) = x
val i = raise 3
val j = 1 handle _ => "x"
val k = fn x => x x
val l = (fn x => x) = (fn y => y)
fun 'a m (x : 'a) = x + 1
val n = "a" + true
val p = let datatype t = C in C end
val q = 3 4
val r = (fn {x, ...} => x + 0) 3
