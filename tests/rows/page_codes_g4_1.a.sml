val rec nil = fn x => x
