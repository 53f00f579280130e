val s = "never closed
