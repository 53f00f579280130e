val x : list = nil
