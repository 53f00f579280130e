(* Lists, and pairs of lists. *)

signature LIST = sig
  datatype list = datatype list
  exception Empty
  val null : 'a list -> bool
  val length : 'a list -> int
  val @ : 'a list * 'a list -> 'a list
  val hd : 'a list -> 'a
  val tl : 'a list -> 'a list
  val last : 'a list -> 'a
  val getItem : 'a list -> ('a * 'a list) option
  val nth : 'a list * int -> 'a
  val take : 'a list * int -> 'a list
  val drop : 'a list * int -> 'a list
  val rev : 'a list -> 'a list
  val concat : 'a list list -> 'a list
  val revAppend : 'a list * 'a list -> 'a list
  val app : ('a -> unit) -> 'a list -> unit
  val map : ('a -> 'b) -> 'a list -> 'b list
  val mapPartial : ('a -> 'b option) -> 'a list -> 'b list
  val find : ('a -> bool) -> 'a list -> 'a option
  val filter : ('a -> bool) -> 'a list -> 'a list
  val partition : ('a -> bool) -> 'a list -> 'a list * 'a list
  val foldl : ('a * 'b -> 'b) -> 'b -> 'a list -> 'b
  val foldr : ('a * 'b -> 'b) -> 'b -> 'a list -> 'b
  val exists : ('a -> bool) -> 'a list -> bool
  val all : ('a -> bool) -> 'a list -> bool
  val tabulate : int * (int -> 'a) -> 'a list
  val collate : ('a * 'a -> order) -> 'a list * 'a list -> order
end

structure List :> LIST = struct
  datatype list = datatype list
  exception Empty
  fun null nil = true
    | null _ = false
  val length = length
  val op @ = op @
  fun hd (first :: _) = first
    | hd nil = raise Empty
  fun tl (_ :: rest) = rest
    | tl nil = raise Empty
  fun last [it] = it
    | last (_ :: rest) = last rest
    | last nil = raise Empty
  fun getItem (first :: rest) = SOME (first, rest)
    | getItem nil = NONE
  fun nth (first :: _, 0) = first
    | nth (_ :: rest, n) = nth (rest, n - 1)
    | nth (nil, _) = raise Subscript
  fun take (_, 0) = nil
    | take (first :: rest, n) = first :: take (rest, n - 1)
    | take (nil, _) = raise Subscript
  fun drop (list, 0) = list
    | drop (_ :: rest, n) = drop (rest, n - 1)
    | drop (nil, _) = raise Subscript
  val rev = rev
  fun foldl _ start nil = start
    | foldl f start (first :: rest) = foldl f (f (first, start)) rest
  fun foldr _ start nil = start
    | foldr f start (first :: rest) = f (first, foldr f start rest)
  fun concat lists = foldr op @ nil lists
  fun revAppend (list, onto) = foldl op :: onto list
  fun app f list = foldl (fn (it, ()) => f it) () list
  val map = map
  fun mapPartial f = foldr (fn (it, rest) => case f it of SOME other => other :: rest | NONE => rest) nil
  fun find holds nil = NONE
    | find holds (first :: rest) = if holds first then SOME first else find holds rest
  fun filter holds = foldr (fn (it, rest) => if holds it then it :: rest else rest) nil
  fun partition holds list = (filter holds list, filter (not o holds) list)
  fun exists holds list = Option.isSome (find holds list)
  fun all holds list = not (exists (not o holds) list)
  fun tabulate (count, f) =
    let fun from n = if n >= count then nil else f n :: from (n + 1)
    in if count < 0 then raise General.Size else from 0 end
  fun collate _ (nil, nil) = EQUAL
    | collate _ (nil, _) = LESS
    | collate _ (_, nil) = GREATER
    | collate compare (a :: more, b :: others) =
        case compare (a, b) of EQUAL => collate compare (more, others) | other => other
end

signature LIST_PAIR = sig
  exception UnequalLengths
  val zip : 'a list * 'b list -> ('a * 'b) list
  val zipEq : 'a list * 'b list -> ('a * 'b) list
  val unzip : ('a * 'b) list -> 'a list * 'b list
  val app : ('a * 'b -> unit) -> 'a list * 'b list -> unit
  val appEq : ('a * 'b -> unit) -> 'a list * 'b list -> unit
  val map : ('a * 'b -> 'c) -> 'a list * 'b list -> 'c list
  val mapEq : ('a * 'b -> 'c) -> 'a list * 'b list -> 'c list
  val foldl : ('a * 'b * 'c -> 'c) -> 'c -> 'a list * 'b list -> 'c
  val foldr : ('a * 'b * 'c -> 'c) -> 'c -> 'a list * 'b list -> 'c
  val foldlEq : ('a * 'b * 'c -> 'c) -> 'c -> 'a list * 'b list -> 'c
  val foldrEq : ('a * 'b * 'c -> 'c) -> 'c -> 'a list * 'b list -> 'c
  val all : ('a * 'b -> bool) -> 'a list * 'b list -> bool
  val exists : ('a * 'b -> bool) -> 'a list * 'b list -> bool
  val allEq : ('a * 'b -> bool) -> 'a list * 'b list -> bool
end

structure ListPair :> LIST_PAIR = struct
  exception UnequalLengths
  fun zip (a :: more, b :: others) = (a, b) :: zip (more, others)
    | zip _ = nil
  fun zipEq (a :: more, b :: others) = (a, b) :: zipEq (more, others)
    | zipEq (nil, nil) = nil
    | zipEq _ = raise UnequalLengths
  fun unzip pairs = List.foldr (fn ((a, b), (more, others)) => (a :: more, b :: others)) (nil, nil) pairs
  fun app f lists = List.app f (zip lists)
  fun appEq f lists = List.app f (zipEq lists)
  fun map f lists = List.map f (zip lists)
  fun mapEq f lists = List.map f (zipEq lists)
  fun folded fold f start pairs = fold (fn ((a, b), rest) => f (a, b, rest)) start pairs
  fun foldl f start lists = folded List.foldl f start (zip lists)
  fun foldr f start lists = folded List.foldr f start (zip lists)
  fun foldlEq f start lists = folded List.foldl f start (zipEq lists)
  fun foldrEq f start lists = folded List.foldr f start (zipEq lists)
  fun all holds lists = List.all holds (zip lists)
  fun exists holds lists = List.exists holds (zip lists)
  fun allEq holds lists = List.all holds (zipEq lists) handle UnequalLengths => false
end
