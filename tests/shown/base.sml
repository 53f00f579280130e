structure S = struct val x = nope end
signature ORDER = sig type t = nope end
functor F (X : sig end) = struct val x = nope end
fun twice n = nope n
val (a, b :: c) = nope
datatype t = A of nope | B
exception Bad of nope
val kept = 1
val kept = nope
val again = nope
val again = 2
