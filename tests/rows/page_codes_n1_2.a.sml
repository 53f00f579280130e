signature S = sig type t end
structure A : S = struct type t = int end
