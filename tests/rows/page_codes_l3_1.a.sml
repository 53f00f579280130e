val s = "\q"
