val y = x
structure R = struct type r = int end
val z = (y, x)
