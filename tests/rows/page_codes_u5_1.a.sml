val b = true + false
