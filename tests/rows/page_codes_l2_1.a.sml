val s = "no end
