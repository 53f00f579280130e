(* From characters to tokens, each with its column. *)

signature LEXER = sig
  datatype token = Int of int | Name of string | Keyword of string | Symbol of string
  exception Unexpected of char * int
  val tokens : string -> (token * int) list
  val toString : token -> string
end

structure Lexer :> LEXER = struct
  datatype token = Int of int | Name of string | Keyword of string | Symbol of string
  exception Unexpected of char * int

  val keywords = ["let", "rec", "in", "fn", "if", "then", "else", "true", "false"]
  val isKeyword = fn word => List.exists (fn keyword => keyword = word) keywords

  fun word text = if isKeyword text then Keyword text else Name text

  (* the token that begins here, and what remains *)
  fun next (column, rest) =
    case Substring.getc rest of
      NONE => NONE
    | SOME (c, after) =>
        let
          fun taken belongs make =
            let val (text, after) = Substring.splitl belongs rest
            in SOME (make (Substring.string text), after) end
        in
          if Char.isDigit c then taken Char.isDigit (Int o valOf o Int.fromString)
          else if Char.isAlpha c then taken (fn c => Char.isAlphaNum c orelse c = #"'") word
          else if Substring.isPrefix "=>" rest then SOME (Symbol "=>", Substring.triml 2 rest)
          else if Char.contains "+-*/=<()" c then SOME (Symbol (str c), after)
          else raise Unexpected (c, column)
        end

  fun tokens line =
    let
      fun from rest =
        let
          val rest = Substring.dropl Char.isSpace rest
          val column = size line - Substring.size rest + 1
        in
          case next (column, rest) of
            NONE => []
          | SOME (token, after) => (token, column) :: from after
        end
    in
      from (Substring.full line)
    end

  fun toString (Int n) = Int.toString n
    | toString (Name x) = x
    | toString (Keyword word) = word
    | toString (Symbol symbol) = symbol
end
