(* the words of standard input, with how often each stands there *)
fun count (word, counted) =
  case List.partition (fn (other, _) => other = word) counted of
    ([(_, n)], rest) => (word, n + 1) :: rest
  | (_, rest) => (word, 1) :: rest
fun line (word, n) = StringCvt.padLeft #" " 6 (Int.toString n) ^ " " ^ word ^ "\n"
val words = String.tokens (not o Char.isAlpha) (TextIO.inputAll TextIO.stdIn)
val counted = foldl count [] words
val () = app (print o line) counted
