val f = fn x => if x < 1.5 then 0 else 1
