fun area x = (x * x, let val s = x in s * 3.14 end)
val f = fn x => (x + x, let val y = x in 1 end, x + 0w1)
val f = fn x => (x + x, let val _ = x in 1 end, x + 0w1)
val f = fn x => (x + x, let val y = [x] in 1 end, x + 0w1)
val f = fn x => (x + x, while true do ignore x, x + 0w1)
val f = fn x => let val y = x + x in x + 0w1 end
val f = fn x => let val y = x + x in x + y end
fun mean (x, y) = let val s = x + y in s / 2.0 end
fun mean (x, y) = let val s : real = x + y in s / 2.0 end
val d = let fun twice x = x + x val r = twice 2 in r * 3 end
val e = fn x => (let val y = x + x val z = x * 2 in z end, x * 2)
