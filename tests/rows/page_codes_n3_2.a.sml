signature S = sig type t end where type t = bool
