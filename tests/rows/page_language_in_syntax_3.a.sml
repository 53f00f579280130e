1 + 1;
val x = it; x
