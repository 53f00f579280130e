infix 5 ##
val y = 1
 val z = (1, ##)