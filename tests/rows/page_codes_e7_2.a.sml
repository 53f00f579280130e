val d = let
  val a = [1, 1, 1, 1, 1, 1, 1, 1, 1, 1]
  val b = [a, a, a, a, a, a, a, a, a, a]
  val c = [b, b, b, b, b, b, b, b, b, b]
in [c, c, c, c, c, c, c, c, c, c] end
