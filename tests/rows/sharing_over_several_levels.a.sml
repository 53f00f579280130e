signature L = sig structure I : sig type t end type u end
signature L1 = sig structure A : L structure B : L sharing A.I = B.I end
signature L2 = sig structure A : L structure B : L sharing A = B sharing type A.u = B.I.t end
signature L3 = sig structure A : L structure B : sig structure C : L end sharing A = B.C end where type A.u = int
signature L4 = sig structure A : L where type u = int structure B : L sharing A = B end
signature L5 = sig structure A : L where type u = int structure B : L where type u = int sharing A = B end
signature L6 = sig structure A : L structure B : sig eqtype u end sharing A = B end
signature L7 = sig type a type b type c sharing type a = b sharing type b = c end where type c = int
signature L8 = sig type a type b sharing type a = b end where type a = int where type b = int
signature L9 = sig structure A : sig datatype d = D end structure B : sig type d end sharing A = B end
signature M0 = sig structure A : sig datatype d = D end structure B : sig type d end structure C : sig datatype d = E end sharing A = B sharing B = C end
functor F (structure A : L structure B : L sharing A = B val x : A.u) = struct val y : B.u = x end
