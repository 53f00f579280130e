(* Files and streams. *)

signature IO = sig
  exception Io of {name : string, function : string, cause : exn}
  exception BlockingNotSupported
  exception NonblockingNotSupported
  exception RandomAccessNotSupported
  exception ClosedStream
  datatype buffer_mode = NO_BUF | LINE_BUF | BLOCK_BUF
end

structure IO :> IO = struct
  exception Io of {name : string, function : string, cause : exn}
  exception BlockingNotSupported
  exception NonblockingNotSupported
  exception RandomAccessNotSupported
  exception ClosedStream
  datatype buffer_mode = NO_BUF | LINE_BUF | BLOCK_BUF
end

(* streams as values; their readers, writers and positions are left out *)
signature STREAM_IO = sig
  type elem
  type vector
  type instream
  type outstream
  val input : instream -> vector * instream
  val input1 : instream -> (elem * instream) option
  val inputN : instream * int -> vector * instream
  val inputAll : instream -> vector * instream
  val canInput : instream * int -> int option
  val closeIn : instream -> unit
  val endOfStream : instream -> bool
  val output : outstream * vector -> unit
  val output1 : outstream * elem -> unit
  val flushOut : outstream -> unit
  val closeOut : outstream -> unit
  val setBufferMode : outstream * IO.buffer_mode -> unit
  val getBufferMode : outstream -> IO.buffer_mode
end

signature IMPERATIVE_IO = sig
  structure StreamIO : STREAM_IO
  type vector = StreamIO.vector
  type elem = StreamIO.elem
  type instream
  type outstream
  val input : instream -> vector
  val input1 : instream -> elem option
  val inputN : instream * int -> vector
  val inputAll : instream -> vector
  val canInput : instream * int -> int option
  val lookahead : instream -> elem option
  val closeIn : instream -> unit
  val endOfStream : instream -> bool
  val output : outstream * vector -> unit
  val output1 : outstream * elem -> unit
  val flushOut : outstream -> unit
  val closeOut : outstream -> unit
  val mkInstream : StreamIO.instream -> instream
  val getInstream : instream -> StreamIO.instream
  val setInstream : instream * StreamIO.instream -> unit
  val mkOutstream : StreamIO.outstream -> outstream
  val getOutstream : outstream -> StreamIO.outstream
  val setOutstream : outstream * StreamIO.outstream -> unit
end

signature TEXT_STREAM_IO = sig
  include STREAM_IO where type vector = string where type elem = char
  val inputLine : instream -> (string * instream) option
  val outputSubstr : outstream * Substring.substring -> unit
end

signature TEXT_IO = sig
  structure StreamIO : TEXT_STREAM_IO
  type vector = string
  type elem = char
  type instream
  type outstream
  val input : instream -> vector
  val input1 : instream -> elem option
  val inputN : instream * int -> vector
  val inputAll : instream -> vector
  val inputLine : instream -> string option
  val canInput : instream * int -> int option
  val lookahead : instream -> elem option
  val closeIn : instream -> unit
  val endOfStream : instream -> bool
  val output : outstream * vector -> unit
  val output1 : outstream * elem -> unit
  val outputSubstr : outstream * Substring.substring -> unit
  val flushOut : outstream -> unit
  val closeOut : outstream -> unit
  val mkInstream : StreamIO.instream -> instream
  val getInstream : instream -> StreamIO.instream
  val setInstream : instream * StreamIO.instream -> unit
  val mkOutstream : StreamIO.outstream -> outstream
  val getOutstream : outstream -> StreamIO.outstream
  val setOutstream : outstream * StreamIO.outstream -> unit
  val openIn : string -> instream
  val openOut : string -> outstream
  val openAppend : string -> outstream
  val openString : string -> instream
  val stdIn : instream
  val stdOut : outstream
  val stdErr : outstream
  val print : string -> unit
  val scanStream : ((char, StreamIO.instream) StringCvt.reader -> ('a, StreamIO.instream) StringCvt.reader)
    -> instream -> 'a option
end

signature BIN_IO = sig
  include IMPERATIVE_IO where type StreamIO.vector = Word8Vector.vector where type StreamIO.elem = Word8.word
  val openIn : string -> instream
  val openOut : string -> outstream
  val openAppend : string -> outstream
end

functor Streams (type elem type vector) = struct
  structure StreamIO = struct
    type elem = elem
    type vector = vector
    type instream = int
    type outstream = int
    val input = any and input1 = any and inputN = any and inputAll = any and canInput = any and closeIn = any
    val endOfStream = any and output = any and output1 = any and flushOut = any and closeOut = any
    val setBufferMode = any and getBufferMode = any and inputLine = any and outputSubstr = any
  end
  type elem = elem
  type vector = vector
  type instream = int
  type outstream = int
  val input = any and input1 = any and inputN = any and inputAll = any and inputLine = any and canInput = any
  val lookahead = any and closeIn = any and endOfStream = any and output = any and output1 = any
  val outputSubstr = any and flushOut = any and closeOut = any
  val mkInstream = any and getInstream = any and setInstream = any
  val mkOutstream = any and getOutstream = any and setOutstream = any
  val openIn = any and openOut = any and openAppend = any and openString = any
  val stdIn = 0 and stdOut = 1 and stdErr = 2
  val print = print
  val scanStream = any
end

structure TextIO :> TEXT_IO = Streams (type elem = char type vector = string)
structure BinIO :> BIN_IO = Streams (type elem = Word8.word type vector = Word8Vector.vector)
