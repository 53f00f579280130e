val z = x
