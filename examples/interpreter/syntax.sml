(* A small functional language: its expressions, and how they are written.

     twice = fn f => fn x => f (f x)
     let rec power n = if n < 1 then 1 else 2 * power (n - 1) in twice power 2 *)

signature SYNTAX = sig
  datatype operator = Plus | Minus | Times | Over | Equals | Less

  datatype exp
    = Number of int
    | Truth of bool
    | Variable of string
    | Binary of exp * operator * exp
    | If of exp * exp * exp
    | Function of string * exp
    | Apply of exp * exp
    | Let of string * exp * exp
    | LetRec of string * string * exp * exp    (* let rec f x = body in rest *)

  datatype command = Define of string * exp | Evaluate of exp

  val symbol : operator -> string
  val show : exp -> string
  (* the variables that an expression names and doesn't bind, each once *)
  val free : exp -> string list
end

structure Syntax : SYNTAX = struct
  datatype operator = Plus | Minus | Times | Over | Equals | Less

  datatype exp
    = Number of int
    | Truth of bool
    | Variable of string
    | Binary of exp * operator * exp
    | If of exp * exp * exp
    | Function of string * exp
    | Apply of exp * exp
    | Let of string * exp * exp
    | LetRec of string * string * exp * exp

  datatype command = Define of string * exp | Evaluate of exp

  fun symbol Plus = "+"
    | symbol Minus = "-"
    | symbol Times = "*"
    | symbol Over = "/"
    | symbol Equals = "="
    | symbol Less = "<"

  fun show (Number n) = Int.toString n
    | show (Truth b) = Bool.toString b
    | show (Variable x) = x
    | show (Binary (left, operator, right)) = String.concatWith " " [part left, symbol operator, part right]
    | show (If (test, yes, no)) = concat ["if ", show test, " then ", show yes, " else ", show no]
    | show (Function (x, body)) = concat ["fn ", x, " => ", show body]
    | show (Apply (function, argument)) = part function ^ " " ^ part argument
    | show (Let (x, exp, rest)) = concat ["let ", x, " = ", show exp, " in ", show rest]
    | show (LetRec (f, x, body, rest)) = concat ["let rec ", f, " ", x, " = ", show body, " in ", show rest]

  (* an operand has brackets, unless it is one word *)
  and part (Number n) = show (Number n)
    | part (Truth b) = show (Truth b)
    | part (Variable x) = x
    | part exp = "(" ^ show exp ^ ")"

  fun without x = List.filter (fn y => x <> y)
  fun union (xs, ys) = xs @ List.filter (fn y => not (List.exists (fn x => x = y) xs)) ys

  fun free (Number _) = []
    | free (Truth _) = []
    | free (Variable x) = [x]
    | free (Binary (left, _, right)) = union (free left, free right)
    | free (If (test, yes, no)) = foldr union [] (map free [test, yes, no])
    | free (Function (x, body)) = without x (free body)
    | free (Apply (function, argument)) = union (free function, free argument)
    | free (Let (x, exp, rest)) = union (free exp, without x (free rest))
    | free (LetRec (f, x, body, rest)) = without f (union (without x (free body), free rest))
end
