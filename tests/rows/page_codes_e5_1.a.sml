val Fail = 3
