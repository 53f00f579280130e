val x : int list = nil
