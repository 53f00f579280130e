(* What everything else needs: orders, options and the exceptions of the top level. *)

signature GENERAL = sig
  eqtype unit
  type exn
  exception Bind
  exception Match
  exception Chr
  exception Div
  exception Domain
  exception Fail of string
  exception Overflow
  exception Size
  exception Span
  exception Subscript
  val exnName : exn -> string
  val exnMessage : exn -> string

  datatype order = LESS | EQUAL | GREATER
  val ! : 'a ref -> 'a
  val := : 'a ref * 'a -> unit
  val o : ('b -> 'c) * ('a -> 'b) -> 'a -> 'c
  val before : 'a * unit -> 'a
  val ignore : 'a -> unit
end

structure General :> GENERAL where type unit = unit where type exn = exn = struct
  type unit = unit
  type exn = exn
  exception Bind = Bind
  exception Match = Match
  exception Chr
  exception Div = Div
  exception Domain
  exception Fail = Fail
  exception Overflow = Overflow
  exception Size
  exception Span
  exception Subscript = Subscript
  val exnName = any and exnMessage = any

  datatype order = LESS | EQUAL | GREATER
  val ! = !
  val op := = op :=
  val op o = op o
  val op before = op before
  val ignore = ignore
end

signature OPTION = sig
  datatype 'a option = NONE | SOME of 'a
  exception Option
  val getOpt : 'a option * 'a -> 'a
  val isSome : 'a option -> bool
  val valOf : 'a option -> 'a
  val filter : ('a -> bool) -> 'a -> 'a option
  val join : 'a option option -> 'a option
  val app : ('a -> unit) -> 'a option -> unit
  val map : ('a -> 'b) -> 'a option -> 'b option
  val mapPartial : ('a -> 'b option) -> 'a option -> 'b option
  val compose : ('a -> 'b) * ('c -> 'a option) -> 'c -> 'b option
  val composePartial : ('a -> 'b option) * ('c -> 'a option) -> 'c -> 'b option
end

structure Option :> OPTION = struct
  datatype 'a option = NONE | SOME of 'a
  exception Option
  fun getOpt (SOME it, _) = it
    | getOpt (NONE, other) = other
  fun isSome (SOME _) = true
    | isSome NONE = false
  fun valOf (SOME it) = it
    | valOf NONE = raise Option
  fun filter holds it = if holds it then SOME it else NONE
  fun join (SOME inner) = inner
    | join NONE = NONE
  fun app f (SOME it) = f it
    | app _ NONE = ()
  fun map f (SOME it) = SOME (f it)
    | map _ NONE = NONE
  fun mapPartial f (SOME it) = f it
    | mapPartial _ NONE = NONE
  fun compose (f, g) it = map f (g it)
  fun composePartial (f, g) it = mapPartial f (g it)
end

(* the units of this library use these bare, as programs do *)
datatype order = datatype General.order
datatype option = datatype Option.option
