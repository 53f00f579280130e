abstype t = T of int with val zero = T 0 end
