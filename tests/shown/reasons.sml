val a = size 3
structure D :> sig val f : int -> int end = struct val f = 3 end
signature H = sig datatype a = X datatype b = Y sharing type a = b end
