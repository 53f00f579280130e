datatype c = C
signature S = sig datatype d = datatype c end
