(* From tokens to trees, by a function for each level of precedence. *)

signature PARSER = sig
  exception Wrong of string * int
  (* a line is empty, or a command *)
  val line : string -> Syntax.command option
end

structure Parser :> PARSER = struct
  open Syntax
  exception Wrong of string * int

  type tokens = (Lexer.token * int) list

  (* a parser takes tokens from the front, and gives what it made of them and the rest *)
  type 'a parser = tokens -> 'a * tokens

  fun wrong wanted [] = raise Wrong (wanted ^ " expected at the end", 0)
    | wrong wanted ((token, at) :: _) = raise Wrong (concat [wanted, " expected before ", Lexer.toString token], at)

  fun expect (wanted : Lexer.token) : unit parser =
    fn (token, at) :: rest => if token = wanted then ((), rest) else wrong (Lexer.toString wanted) ((token, at) :: rest)
     | [] => wrong (Lexer.toString wanted) []

  fun name ((Lexer.Name x, _) :: rest) = (x, rest)
    | name tokens = wrong "a name" tokens

  val keyword = expect o Lexer.Keyword
  val sign = expect o Lexer.Symbol

  fun operators level (Lexer.Symbol symbol) =
        List.find (fn operator => Syntax.symbol operator = symbol) level
    | operators _ _ = NONE

  (* operands of one level, grouped to the left *)
  fun leftward (operand : exp parser) level tokens =
    let
      fun more (left, tokens as (token, _) :: rest) =
            (case operators level token of
               SOME operator =>
                 let val (right, rest) = operand rest
                 in more (Binary (left, operator, right), rest) end
             | NONE => (left, tokens))
        | more (left, []) = (left, [])
    in
      more (operand tokens)
    end

  fun exp ((Lexer.Keyword "let", _) :: (Lexer.Keyword "rec", _) :: rest) =
        let
          val (f, rest) = name rest
          val (x, rest) = name rest
          val ((), rest) = sign "=" rest
          val (body, rest) = exp rest
          val ((), rest) = keyword "in" rest
          val (scope, rest) = exp rest
        in (LetRec (f, x, body, scope), rest) end
    | exp ((Lexer.Keyword "let", _) :: rest) =
        let
          val (x, rest) = name rest
          val ((), rest) = sign "=" rest
          val (bound, rest) = exp rest
          val ((), rest) = keyword "in" rest
          val (scope, rest) = exp rest
        in (Let (x, bound, scope), rest) end
    | exp ((Lexer.Keyword "fn", _) :: rest) =
        let
          val (x, rest) = name rest
          val ((), rest) = sign "=>" rest
          val (body, rest) = exp rest
        in (Function (x, body), rest) end
    | exp ((Lexer.Keyword "if", _) :: rest) =
        let
          val (test, rest) = exp rest
          val ((), rest) = keyword "then" rest
          val (yes, rest) = exp rest
          val ((), rest) = keyword "else" rest
          val (no, rest) = exp rest
        in (If (test, yes, no), rest) end
    | exp tokens = leftward sum [Equals, Less] tokens

  and sum tokens = leftward product [Plus, Minus] tokens
  and product tokens = leftward application [Times, Over] tokens

  and application tokens =
    let
      fun more (function, tokens) =
        case atom tokens of
          SOME (argument, rest) => more (Apply (function, argument), rest)
        | NONE => (function, tokens)
    in
      case atom tokens of
        SOME first => more first
      | NONE => wrong "an expression" tokens
    end

  and atom ((Lexer.Int n, _) :: rest) = SOME (Number n, rest)
    | atom ((Lexer.Name x, _) :: rest) = SOME (Variable x, rest)
    | atom ((Lexer.Keyword "true", _) :: rest) = SOME (Truth true, rest)
    | atom ((Lexer.Keyword "false", _) :: rest) = SOME (Truth false, rest)
    | atom ((Lexer.Symbol "(", _) :: rest) =
        let
          val (inner, rest) = exp rest
          val ((), rest) = sign ")" rest
        in SOME (inner, rest) end
    | atom _ = NONE

  fun whole (it, []) = it
    | whole (_, tokens) = wrong "the end" tokens

  fun command ((Lexer.Name x, _) :: (Lexer.Symbol "=", _) :: rest) = Define (x, whole (exp rest))
    | command tokens = Evaluate (whole (exp tokens))

  fun line text =
    case Lexer.tokens text of
      [] => NONE
    | tokens => SOME (command tokens)
end
