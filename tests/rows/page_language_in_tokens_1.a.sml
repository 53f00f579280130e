val c = "\u0100"
