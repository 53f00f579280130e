signature H = sig eqtype t end where type t = int -> int
