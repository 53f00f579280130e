signature S = sig type t val x : t val x : int end
