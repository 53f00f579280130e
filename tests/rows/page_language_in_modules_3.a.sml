signature S = sig type t = int end
signature T = sig structure A : S structure B : S sharing A = B end
