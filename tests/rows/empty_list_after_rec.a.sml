val rec [] = fn x => x
val [] = [1]
val rec f = fn [] => 0 | _ :: r => 1 + f r
