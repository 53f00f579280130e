val twice = fn x => x + x
val k = let val f = fn x => x + x in f 1.5 end
val k = let val f = fn x : real => x + x in f 1.5 end
fun first r = let val get = fn {a, ...} => a in get {a = 1, b = r} end
