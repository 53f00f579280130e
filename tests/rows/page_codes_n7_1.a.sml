signature S = sig datatype a = A datatype b = B sharing type a = b end
