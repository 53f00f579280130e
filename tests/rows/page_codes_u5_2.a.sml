val b = true orelse false
