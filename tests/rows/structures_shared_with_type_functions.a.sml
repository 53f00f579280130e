signature A1 = sig structure A : sig type d type 'a p = d end structure B : sig type d type 'a p = d end sharing A = B end
signature A2 = sig structure A : sig type d type ('a, 'b) p = 'a * 'b * d end structure B : sig type d type ('a, 'b) p = 'b * 'a * d end sharing A = B end
signature A3 = sig structure A : sig type t = int end structure B : sig type t = int end sharing A = B end
signature A4 = sig structure A : sig type t = int end structure B : sig type t = int end sharing type A.t = B.t end
signature A5 = sig structure A : sig type d type 'a p = 'a * d end structure B : sig type d type 'a p = d * 'a end sharing A = B end
