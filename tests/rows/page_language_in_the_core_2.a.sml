fun half (w, h) = let val area = w * h in area / 2.0 end
fun half (w : real, h) = let val area = w * h in area / 2.0 end
fun greet r = let val n = #name r in n ^ "!" end
fun greet (r : {name : string, age : int}) = let val n = #name r in n ^ "!" end
fun area x = (x * x, let val same = x in same * 3.14 end)
