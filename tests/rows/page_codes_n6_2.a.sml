signature S = sig type t type u sharing type t = u end
