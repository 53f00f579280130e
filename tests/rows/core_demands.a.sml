structure S0 = struct val v = 1 exception X of int datatype t = T of int | N end
val c1 = 1
val c2 = 0w1
val c3 = 1.5
val c4 = "s"
val c5 = #"c"
val i1 = Nope.x
val i2 = nope
val i3 = (rev [1], rev [true])
val i4 = op= : (int -> int) * (int -> int) -> bool
val i5 = op+ : bool * bool -> bool
val r1 = {a = 1, b = true}
val r2 = {a = nope}
val l1 = let val x = 1 in x end
val l2 = let val x = nope in x end
val l3 = let val x = 1 in nope end
val l4 = let datatype d = D in D end
val a1 = nope 1
val a2 = not nope
val a3 = not 1
val a4 = not true
val t1 = 1 : int
val t2 = nope : int
val t3 = 1 : nope
val t4 = 1 : bool
val (p1 : int) = 1
val (p2 : nope) = 1
val (1 : bool) = 1
val h1 = 1 handle Div => 2
val h2 = nope handle Div => 2
val h3 = 1 handle Div => nope
val h4 = 1 handle Div => true
val h5 = 1 handle 2 => 3
val x1 = fn y => raise Fail y
val x2 = raise nope
val x3 = raise 1
val f1 = fn Nope.x => 1
fun f2 x = let datatype d = D fun g D = () in g x end
val f3 = fn x => nope
val f4 = fn 1 => 2 | _ => true
val f5 = fn 1 => 2 | n => n
val (v1, v1) = (1, 2)
val _ = 1
val (Nope.C) = 1
val S0.zz = 1
val S0.v = 1
val nope z = 1
val S0.T = 1
val S0.N z = S0.N
val S0.T (q, q) = S0.T 1
val S0.T true = S0.T 1
val S0.T n0 = S0.T 1
val {a = Nope.x, ...} = {a = 1}
val {a = w1, ...} = 1
val {a = w2, ...} = {a = 1, b = 2}
val u6 = fn {a, ...} => a
val true as z = true
val (k1 as k1) = 1
val k2 : nope as z = 1
val k3 as Nope.x = 1
val k4 : bool as 1 = 1
val k5 as (k6, _) = (1, 2)
type y1 = Nope.t
type y2 = nope
type y3 = S0.tt
type y4 = list
type y5 = bool int
type y6 = nope list
type y7 = 'a
type 'a y8 = 'a * int
val b1 = 1 and b2 = true
val (b3, b4) = 1
val b5 = nope and b6 = nopf
val c6 = 1 and c6 = 2
val rec d1 = 3
val rec d2 = fn x => nope
val rec d3 : int = fn x => x
val rec d4 = fn x => d4 x
val rec d5 = 3 and (d6, d5) = 4
val e1 = fn x => x + x
val 'a e2 = fn (x : 'a) => x + 1
val e3 = fn x => let val 'a y = fn (z : 'a) => if true then z else x in y end
val 'a e4 = fn (x : 'a) => x
val g1 = fn x => x x
val g2 = (fn x => x) = (fn x => x)
exception X1 of nope
exception X2 = Nope.X
exception X3 = nope
exception X4 = true
exception X5 of int
exception X6 = Fail
datatype 'a z1 = Z of 'b
datatype z2 = Z2 of nope
datatype z3 = datatype nope
datatype z4 = datatype bool
open Nope
open S0
local val q1 = 1 in val q2 = q1 end
local val q3 = nope in val q4 = q3 end
val q5 = ref nil
