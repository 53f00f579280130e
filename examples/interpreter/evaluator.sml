(* What expressions mean. *)

signature EVALUATOR = sig
  type value
  type environment
  exception Stuck of string
  val empty : environment
  val define : environment * string * value -> environment
  val names : environment -> string list
  val evaluate : environment -> Syntax.exp -> value
  val toString : value -> string
end

structure Evaluator :> EVALUATOR = struct
  open Syntax

  datatype value = Integer of int | Boolean of bool | Closure of value -> value
  type environment = (string * value) list
  exception Stuck of string

  val empty = []
  fun define (environment, x, value) = (x, value) :: environment
  fun names environment = #1 (ListPair.unzip environment)

  fun lookup environment x =
    case List.find (fn (y, _) => x = y) environment of
      SOME (_, value) => value
    | NONE => raise Stuck (x ^ " isn't defined")

  fun binary (Integer m, Plus, Integer n) = Integer (m + n)
    | binary (Integer m, Minus, Integer n) = Integer (m - n)
    | binary (Integer m, Times, Integer n) = Integer (m * n)
    | binary (Integer _, Over, Integer 0) = raise Stuck "division by zero"
    | binary (Integer m, Over, Integer n) = Integer (m div n)
    | binary (Integer m, Equals, Integer n) = Boolean (m = n)
    | binary (Boolean a, Equals, Boolean b) = Boolean (a = b)
    | binary (Integer m, Less, Integer n) = Boolean (m < n)
    | binary (_, operator, _) = raise Stuck (symbol operator ^ " has wrong operands")

  fun evaluate environment exp =
    case exp of
      Number n => Integer n
    | Truth b => Boolean b
    | Variable x => lookup environment x
    | Binary (left, operator, right) => binary (evaluate environment left, operator, evaluate environment right)
    | If (test, yes, no) =>
        (case evaluate environment test of
           Boolean true => evaluate environment yes
         | Boolean false => evaluate environment no
         | _ => raise Stuck "a test has to be true or false")
    | Function (x, body) => Closure (fn argument => evaluate (define (environment, x, argument)) body)
    | Apply (function, argument) =>
        (case evaluate environment function of
           Closure call => call (evaluate environment argument)
         | _ => raise Stuck (show function ^ " is no function"))
    | Let (x, bound, scope) => evaluate (define (environment, x, evaluate environment bound)) scope
    | LetRec (f, x, body, scope) =>
        let fun call argument = evaluate (define (define (environment, f, Closure call), x, argument)) body
        in evaluate (define (environment, f, Closure call)) scope end

  fun toString (Integer n) = Int.toString n
    | toString (Boolean b) = Bool.toString b
    | toString (Closure _) = "fn"
end
