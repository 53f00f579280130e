signature H = sig type t end where type t = int -> int
