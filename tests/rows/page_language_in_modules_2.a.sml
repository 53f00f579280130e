signature S = sig datatype a = A datatype b = B sharing type a = b end
signature T = sig datatype a = A type b sharing type a = b end
