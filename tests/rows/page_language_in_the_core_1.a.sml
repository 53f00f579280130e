val n = let val r = ref nil in length (!r) end
val r = ref nil val s = 1 :: !r
structure R = struct val r = ref nil val _ = r := [1] end
