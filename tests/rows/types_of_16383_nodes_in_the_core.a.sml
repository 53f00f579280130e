type 'a t = 'a * 'a
type 'a drop = int
type u = int t t t t t t t t t t t t t
type u = int t t t t t t t t t t t t t and v = w
type u = int t t t t t t t t t t t t t * w
type 'a u = 'a t t t t t t t t t t t t t and 'a v = int
type u = int t t t t t t t t t t t t t and v = 'a
type u = int t t t t t t t t t t t t t and v = (int, int) t
type v = int t t t t t t t t t t t t t t drop
type v = int t t t t t t t t t t t t t drop t
val x = let type u = int t t t t t t t t t t t t t in 1 end
val x = let type u = int t t t t t t t t t t t t t and v = w in 1 end
val x = let type u = int t t t t t t t t t t t t t t drop in 1 : u end
datatype d = D of int t t t t t t t t t t t t t
datatype d = D of int t t t t t t t t t t t t t | E of w
datatype d = D of int t t t t t t t t t t t t t and e = E of w
datatype d = D of int t t t t t t t t t t t t t drop
datatype d = D of s withtype s = int t t t t t t t t t t t t t
datatype d = D of s | E of w withtype s = int t t t t t t t t t t t t t
datatype d = D of s * r withtype s = int t t t t t t t t t t t t t and r = w
datatype d = D withtype s = int t t t t t t t t t t t t t
datatype d = D withtype s = int t t t t t t t t t t t t t and r = w
datatype d = D of int s withtype 'a s = 'a t t t t t t t t t t t t t
datatype d = D of int s | E of w withtype 'a s = 'a t t t t t t t t t t t t t
datatype d = D of int t t t t t t t t t t t t t s withtype 'a s = 'a drop
datatype d = D of (int t t t t t t t t t t t t t, bool) s withtype ('a, 'b) s = 'b
exception E of int t t t t t t t t t t t t t
exception E of int t t t t t t t t t t t t t and F of w
exception E of int t t t t t t t t t t t t t and F = G
exception E of int t t t t t t t t t t t t t drop
val f = fn x => (x : int t t t t t t t t t t t t t)
val f = fn x => (x : int t t t t t t t t t t t t t * w)
val f = fn x => (x : bool * w * int t t t t t t t t t t t t t)
val f = fn x => (x : (int t t t t t t t t t t t t t))
val f = fn x => (x : bool * int t t t t t t t t t t t t t, 1 : w)
val f = fn (x : int t t t t t t t t t t t t t) => x
val f = fn (x : int t t t t t t t t t t t t t -> w) => x
val f = fn (x : {a : int t t t t t t t t t t t t t, b : int}) => 1 2
val f = fn (x : int t t t t t t t t t t t t t as y) => x
val f = fn (x : int t t t t t t t t t t t t t * w as y) => x
val f = fn (x : int t t t t t t t t t t t t t drop as y) => y
val _ = (fn (x : int t t t t t t t t t t t t t drop) => x : int t t t t t t t t t t t t t drop) 1
