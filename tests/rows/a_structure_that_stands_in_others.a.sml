structure S = struct
  structure A = struct datatype t = C val x = C end
  structure B = A
  structure D = struct structure E = A val y = A.C end
end
functor F (X : sig type u end) = struct
  structure A = struct datatype t = C of X.u end
  structure B = A
end
structure G = F (type u = int)
