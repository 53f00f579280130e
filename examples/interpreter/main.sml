(* Reads the files that the command line names, or standard input, line by line. *)

structure Main : sig val main : string list -> OS.Process.status end = struct
  val errors = ref 0

  fun complain (file, number, text) =
    (errors := !errors + 1;
     TextIO.output (TextIO.stdErr, concat [file, ":", Int.toString number, ": ", text, "\n"]))

  fun missing (environment, exp) =
    List.filter (fn x => not (List.exists (fn y => x = y) (Evaluator.names environment))) (Syntax.free exp)

  fun value (environment, exp) =
    case missing (environment, exp) of
      [] => Evaluator.evaluate environment exp
    | names => raise Evaluator.Stuck ("not defined: " ^ String.concatWith ", " names)

  (* what a line adds to what is defined *)
  fun obey (environment, text) =
    case Parser.line text of
      NONE => environment
    | SOME (Syntax.Define (x, exp)) => Evaluator.define (environment, x, value (environment, exp))
    | SOME (Syntax.Evaluate exp) =>
        (print (Evaluator.toString (value (environment, exp)) ^ "\n"); environment)

  fun run (file, stream) =
    let
      fun from (environment, number) =
        case TextIO.inputLine stream of
          NONE => ()
        | SOME text =>
            let
              fun failed reason = (complain (file, number, reason); environment)
              val next = obey (environment, text)
                handle Lexer.Unexpected (c, column) => failed (concat [Int.toString column, ": unexpected ", Char.toString c])
                     | Parser.Wrong (reason, column) => failed (concat [Int.toString column, ": ", reason])
                     | Evaluator.Stuck reason => failed reason
                     | Overflow => failed "number too large"
            in
              from (next, number + 1)
            end
    in
      from (Evaluator.empty, 1)
    end

  fun runFile file =
    let val stream = TextIO.openIn file
    in run (file, stream); TextIO.closeIn stream end
    handle IO.Io {name, cause, ...} => complain (name, 0, exnMessage cause)

  fun main [] = (run ("standard input", TextIO.stdIn); status ())
    | main files = (app runFile files; status ())

  and status () = if !errors = 0 then OS.Process.success else OS.Process.failure
end

val () = OS.Process.exit (Main.main (CommandLine.arguments ()))
