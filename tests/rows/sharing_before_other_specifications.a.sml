signature EQUALITY = sig type a eqtype b sharing type a = b datatype d = D of a end
signature NONE = sig type a type b sharing type a = b datatype d = D of a end
signature LATER = sig type a type b sharing type a = b type c sharing type b = c val x : a * c datatype e = E of b end
signature INNER = sig
  type a
  type b
  sharing type a = b
  structure X : sig
    structure P : sig type t = a end
    structure Q : sig type t = b end
    sharing P = Q
  end
end
signature WHERE = sig
  type a
  eqtype b
  sharing type a = b
  structure Y : EQUALITY where type b = a list
end
signature REPLICATION = sig
  structure P : sig datatype d = D end
  structure Q : sig datatype d = D end
  sharing type P.d = Q.d
  datatype g = datatype P.d
  eqtype b
  sharing type g = b
  structure R : sig type t end where type t = g
end
signature OTHER = sig datatype d = D type a sharing type d = a datatype e = E sharing type a = e end
signature AGAIN = sig type a type b sharing type a = b end where type a = int where type b = int
signature PAIR = sig type 'a t type u val x : u t end where type 'a t = 'a * 'a where type u = int
