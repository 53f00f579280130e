val s = "\\q"
val c = #"a"
