val y = undefined + 1
