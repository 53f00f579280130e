val x = 1 (* (* inner *)
