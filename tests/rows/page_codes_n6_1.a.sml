signature S = sig type t type 'a u sharing type t = u end
