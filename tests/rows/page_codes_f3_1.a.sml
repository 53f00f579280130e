infix 12 ##
