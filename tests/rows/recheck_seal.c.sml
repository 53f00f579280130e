val z = y
