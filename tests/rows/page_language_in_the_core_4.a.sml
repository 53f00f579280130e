val f = fn x => let val 'a y = let val z : 'a = x in 1 end in x end
val g = fn x => let val y = let val z = x in 1 end in x end
