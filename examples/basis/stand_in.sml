(* What stands for the library's functions. It has the type of every function, and only types matter here. *)
fun any _ = raise Fail "a stand-in"
