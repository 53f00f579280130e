val firsts = pairs [1, 2, 3]
val total = firsts + 1
