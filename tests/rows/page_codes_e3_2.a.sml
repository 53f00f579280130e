structure T = struct structure U = struct val x = 1 end end
val z = T.U.x
