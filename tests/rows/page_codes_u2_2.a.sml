datatype t = T of t -> t
val f = fn T x => x (T x)
