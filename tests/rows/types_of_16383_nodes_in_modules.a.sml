type 'a t = 'a * 'a
type 'a drop = int
signature S = sig val x : int t t t t t t t t t t t t t end
signature S = sig val x : int t t t t t t t t t t t t t and y : w end
signature S = sig val x : int t t t t t t t t t t t t t val y : w end
signature S = sig val x : int t t t t t t t t t t t t t drop end
signature S = sig type u = int t t t t t t t t t t t t t end
signature S = sig type u = int t t t t t t t t t t t t t * w end
signature S = sig type u = int t t t t t t t t t t t t t and v = w end
signature S = sig type u = int t t t t t t t t t t t t t drop end
signature S = sig datatype d = D of int t t t t t t t t t t t t t end
signature S = sig datatype d = D of int t t t t t t t t t t t t t | E of w end
signature S = sig exception E of int t t t t t t t t t t t t t end
signature S = sig exception E of int t t t t t t t t t t t t t and F of w end
signature S = sig type u end where type u = int t t t t t t t t t t t t t
signature S = sig type u end where type u = int t t t t t t t t t t t t t * w
signature S = sig type 'a u val x : int u u u u u u u u u u u u u end where type 'a u = 'a * 'a
signature S = sig type 'a u val x : int u u u u u u u u u u u u u end where type 'a u = 'a * w
signature S = sig type 'a u val x : int u u u u u u u u u u u u u end where type 'a u = int
signature S = sig type 'a u val x : int u u u u u u u u u u u u u end where type u = int t t t t t t t t t t t t t
signature S = sig type u = int end where type u = int t t t t t t t t t t t t t
signature S = sig eqtype u end where type u = int t t t t t t t t t t t t t * (int -> int)
signature S = sig eqtype u end where type u = int t t t t t t t t t t t t t
signature S = sig datatype u = U end where type u = int t t t t t t t t t t t t t
structure A :> sig type 'a u val c : int u u u u u u u u u u u u u -> bool u u u u u u u u u u u u u end = struct type 'a u = 'a * 'a fun c x = x end
structure A : sig type 'a u val c : int u u u u u u u u u u u u u -> bool u u u u u u u u u u u u u end = struct type 'a u = 'a * 'a fun c x = x end
structure A :> sig type 'a u val c : int u u u u u u u u u u u u u val d : w end = struct type 'a u = 'a * 'a fun c x = x end
structure A :> sig type 'a u val c : int u u u u u u u u u u u u u -> bool u u u u u u u u u u u u u end = struct type 'a u = 'a * 'a end
structure A :> sig type 'a u type v val c : int u u u u u u u u u u u u u end = struct type 'a u = 'a * 'a end
structure A : sig type 'a u val c : int u u u u u u u u u u u u u -> bool u u u u u u u u u u u u u end = struct type 'a u = int fun c x = x end
functor F (X : sig type 'a u val c : int u u u u u u u u u u u u u -> bool u u u u u u u u u u u u u end) = struct end
structure B = F (struct type 'a u = 'a * 'a fun c x = x end)
structure B = F (struct type 'a u = 'a * 'a fun c x = (x : w) end)
structure B = F (struct type 'a u = 'a * 'a end)
structure B = F (struct type 'a u = int fun c x = x end)
functor G (type 'a u) = struct type v = int u u u u u u u u u u u u u end
structure C = G (type 'a u = 'a * 'a)
structure C = G (type 'a u = 'a * w)
structure C = G (type 'a u = 'a drop)
structure W = struct val r = ref nil fun d x = (x, x) val _ = fn _ => r := [d (d (d (d (d (d (d (d (d (d (d (d (d (1)))))))))))))] end
structure W = struct val r = ref nil fun d x = (x, x) val _ = fn _ => r := [d (d (d (d (d (d (d (d (d (d (d (d (d (1)))))))))))))] val s = ref nil end
structure W = struct val r = ref (let fun p x = (x, x) in map p nil end) fun d x = (x, x) val _ = fn _ => r := [(d (d (d (d (d (d (d (d (d (d (d (d (1)))))))))))), d (d (d (d (d (d (d (d (d (d (d (d (1)))))))))))))] end
structure W = struct local val s = ref nil in val r = ref nil fun d x = (x, x) val _ = fn _ => r := [d (d (d (d (d (d (d (d (d (d (d (d (d (s)))))))))))))] end end
functor H () = struct val r = ref nil fun d x = (x, x) val _ = fn _ => r := [d (d (d (d (d (d (d (d (d (d (d (d (d (1)))))))))))))] end
functor H () = struct val r = ref nil fun d x = (x, x) val _ = fn _ => r := [d (d (d (d (d (d (d (d (d (d (d (d (d (1)))))))))))))] end and I () = struct val s = ref nil end
signature E = sig type 'a t val c : int t t t t t t t t t t t t t -> bool t t t t t t t t t t t t t end
structure A :> E = struct type 'a t = 'a * 'a fun c x = x end
