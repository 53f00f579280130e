val p = fn x => x + x
val q = fn x => x / x
val g = fn {a, ...} => a