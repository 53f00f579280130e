datatype t = A
datatype t = B
val x = A = B
structure S :> sig type u val u : u end = struct type u = int val u = 3 end
val y = S.u + 1
val z = let datatype t = C in C = B end
structure V = struct structure Q = struct datatype q = Q end val w = Q.Q + 1 end
