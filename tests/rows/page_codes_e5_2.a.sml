val Fail text = Fail "no"
val failed = 3
