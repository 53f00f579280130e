(* the unit ends within a declaration *)
val x =