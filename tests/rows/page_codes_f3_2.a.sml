infix 5 ##
