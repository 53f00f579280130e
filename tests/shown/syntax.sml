val x = 1
val y =
	then 2
