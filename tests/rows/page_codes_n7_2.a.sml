signature S = sig datatype a = A type b sharing type a = b end
