(* Integers, words and reals. *)

(* The signatures below name these types, whose structures come after them. The checker has one int, one word and one
   real: the larger types are these too, so that constants and operators serve them. *)
structure Int = struct type int = int end
structure LargeInt = Int
structure Word = struct type word = word end
structure LargeWord = Word
structure LargeReal = struct type real = real end

signature INTEGER = sig
  eqtype int
  val toLarge : int -> LargeInt.int
  val fromLarge : LargeInt.int -> int
  val toInt : int -> Int.int
  val fromInt : Int.int -> int
  val precision : Int.int option
  val minInt : int option
  val maxInt : int option
  val + : int * int -> int
  val - : int * int -> int
  val * : int * int -> int
  val div : int * int -> int
  val mod : int * int -> int
  val quot : int * int -> int
  val rem : int * int -> int
  val compare : int * int -> order
  val < : int * int -> bool
  val <= : int * int -> bool
  val > : int * int -> bool
  val >= : int * int -> bool
  val ~ : int -> int
  val abs : int -> int
  val min : int * int -> int
  val max : int * int -> int
  val sign : int -> Int.int
  val sameSign : int * int -> bool
  val fmt : StringCvt.radix -> int -> string
  val toString : int -> string
  val scan : StringCvt.radix -> (char, 'a) StringCvt.reader -> (int, 'a) StringCvt.reader
  val fromString : string -> int option
end

signature INT_INF = sig
  include INTEGER
  val divMod : int * int -> int * int
  val quotRem : int * int -> int * int
  val pow : int * Int.int -> int
  val log2 : int -> Int.int
  val orb : int * int -> int
  val xorb : int * int -> int
  val andb : int * int -> int
  val notb : int -> int
  val << : int * Word.word -> int
  val ~>> : int * Word.word -> int
end

structure IntInf :> INT_INF where type int = int = struct
  type int = int
  val toLarge = any and fromLarge = any and toInt = any and fromInt = any
  val precision = NONE and minInt = NONE and maxInt = NONE
  val op + : int * int -> int = op +
  val op - : int * int -> int = op -
  val op * : int * int -> int = op *
  val op div : int * int -> int = op div
  val op mod : int * int -> int = op mod
  val quot = any and rem = any and compare = any
  val op < : int * int -> bool = op <
  val op <= : int * int -> bool = op <=
  val op > : int * int -> bool = op >
  val op >= : int * int -> bool = op >=
  val ~ : int -> int = ~
  val abs : int -> int = abs
  val min = any and max = any and sign = any and sameSign = any
  val fmt = any and toString = any and scan = any and fromString = any
  val divMod = any and quotRem = any and pow = any and log2 = any
  val orb = any and xorb = any and andb = any and notb = any and << = any and ~>> = any
end

structure Int :> INTEGER where type int = int = IntInf
structure LargeInt = IntInf
structure FixedInt = Int
structure Int32 = Int
structure Int64 = Int
structure Position = Int

signature WORD = sig
  eqtype word
  val wordSize : int
  val toLarge : word -> LargeWord.word
  val toLargeX : word -> LargeWord.word
  val toLargeWord : word -> LargeWord.word
  val toLargeWordX : word -> LargeWord.word
  val fromLarge : LargeWord.word -> word
  val fromLargeWord : LargeWord.word -> word
  val toLargeInt : word -> LargeInt.int
  val toLargeIntX : word -> LargeInt.int
  val fromLargeInt : LargeInt.int -> word
  val toInt : word -> int
  val toIntX : word -> int
  val fromInt : int -> word
  val andb : word * word -> word
  val orb : word * word -> word
  val xorb : word * word -> word
  val notb : word -> word
  val << : word * Word.word -> word
  val >> : word * Word.word -> word
  val ~>> : word * Word.word -> word
  val + : word * word -> word
  val - : word * word -> word
  val * : word * word -> word
  val div : word * word -> word
  val mod : word * word -> word
  val compare : word * word -> order
  val < : word * word -> bool
  val <= : word * word -> bool
  val > : word * word -> bool
  val >= : word * word -> bool
  val ~ : word -> word
  val min : word * word -> word
  val max : word * word -> word
  val fmt : StringCvt.radix -> word -> string
  val toString : word -> string
  val scan : StringCvt.radix -> (char, 'a) StringCvt.reader -> (word, 'a) StringCvt.reader
  val fromString : string -> word option
end

structure Bits = struct
  type word = word
  val wordSize = 64
  val toLarge = any and toLargeX = any and toLargeWord = any and toLargeWordX = any
  val fromLarge = any and fromLargeWord = any
  val toLargeInt = any and toLargeIntX = any and fromLargeInt = any and toInt = any and toIntX = any and fromInt = any
  val andb = any and orb = any and xorb = any and notb = any and << = any and >> = any and ~>> = any
  val op + : word * word -> word = op +
  val op - : word * word -> word = op -
  val op * : word * word -> word = op *
  val op div : word * word -> word = op div
  val op mod : word * word -> word = op mod
  val compare = any
  val op < : word * word -> bool = op <
  val op <= : word * word -> bool = op <=
  val op > : word * word -> bool = op >
  val op >= : word * word -> bool = op >=
  val ~ = any and min = any and max = any and fmt = any and toString = any and scan = any and fromString = any
end

structure Word :> WORD where type word = word = Bits
structure LargeWord = Word
structure SysWord = Word
structure Word32 = Word
structure Word64 = Word
structure Word8 :> WORD = Bits

signature IEEE_REAL = sig
  exception Unordered
  datatype real_order = LESS | EQUAL | GREATER | UNORDERED
  datatype float_class = NAN | INF | ZERO | NORMAL | SUBNORMAL
  datatype rounding_mode = TO_NEAREST | TO_NEGINF | TO_POSINF | TO_ZERO
  val setRoundingMode : rounding_mode -> unit
  val getRoundingMode : unit -> rounding_mode
  type decimal_approx = {class : float_class, sign : bool, digits : int list, exp : int}
  val toString : decimal_approx -> string
  val scan : (char, 'a) StringCvt.reader -> (decimal_approx, 'a) StringCvt.reader
  val fromString : string -> decimal_approx option
end

structure IEEEReal :> IEEE_REAL = struct
  exception Unordered
  datatype real_order = LESS | EQUAL | GREATER | UNORDERED
  datatype float_class = NAN | INF | ZERO | NORMAL | SUBNORMAL
  datatype rounding_mode = TO_NEAREST | TO_NEGINF | TO_POSINF | TO_ZERO
  type decimal_approx = {class : float_class, sign : bool, digits : int list, exp : int}
  val setRoundingMode = any and getRoundingMode = any and toString = any and scan = any and fromString = any
end

signature MATH = sig
  type real
  val pi : real
  val e : real
  val sqrt : real -> real
  val sin : real -> real
  val cos : real -> real
  val tan : real -> real
  val asin : real -> real
  val acos : real -> real
  val atan : real -> real
  val atan2 : real * real -> real
  val exp : real -> real
  val pow : real * real -> real
  val ln : real -> real
  val log10 : real -> real
  val sinh : real -> real
  val cosh : real -> real
  val tanh : real -> real
end

structure Math :> MATH where type real = real = struct
  type real = real
  val pi = 3.14159265358979 and e = 2.71828182845905
  val sqrt = any and sin = any and cos = any and tan = any and asin = any and acos = any and atan = any and atan2 = any
  val exp = any and pow = any and ln = any and log10 = any and sinh = any and cosh = any and tanh = any
end

signature REAL = sig
  type real
  structure Math : MATH where type real = real
  val radix : int
  val precision : int
  val maxFinite : real
  val minPos : real
  val minNormalPos : real
  val posInf : real
  val negInf : real
  val + : real * real -> real
  val - : real * real -> real
  val * : real * real -> real
  val / : real * real -> real
  val rem : real * real -> real
  val *+ : real * real * real -> real
  val *- : real * real * real -> real
  val ~ : real -> real
  val abs : real -> real
  val min : real * real -> real
  val max : real * real -> real
  val sign : real -> int
  val signBit : real -> bool
  val sameSign : real * real -> bool
  val copySign : real * real -> real
  val compare : real * real -> order
  val compareReal : real * real -> IEEEReal.real_order
  val < : real * real -> bool
  val <= : real * real -> bool
  val > : real * real -> bool
  val >= : real * real -> bool
  val == : real * real -> bool
  val != : real * real -> bool
  val ?= : real * real -> bool
  val unordered : real * real -> bool
  val isFinite : real -> bool
  val isNan : real -> bool
  val isNormal : real -> bool
  val class : real -> IEEEReal.float_class
  val toManExp : real -> {man : real, exp : int}
  val fromManExp : {man : real, exp : int} -> real
  val split : real -> {whole : real, frac : real}
  val realMod : real -> real
  val nextAfter : real * real -> real
  val checkFloat : real -> real
  val realFloor : real -> real
  val realCeil : real -> real
  val realTrunc : real -> real
  val realRound : real -> real
  val floor : real -> int
  val ceil : real -> int
  val trunc : real -> int
  val round : real -> int
  val toInt : IEEEReal.rounding_mode -> real -> int
  val toLargeInt : IEEEReal.rounding_mode -> real -> LargeInt.int
  val fromInt : int -> real
  val fromLargeInt : LargeInt.int -> real
  val toLarge : real -> LargeReal.real
  val fromLarge : IEEEReal.rounding_mode -> LargeReal.real -> real
  val fmt : StringCvt.realfmt -> real -> string
  val toString : real -> string
  val scan : (char, 'a) StringCvt.reader -> (real, 'a) StringCvt.reader
  val fromString : string -> real option
  val toDecimal : real -> IEEEReal.decimal_approx
  val fromDecimal : IEEEReal.decimal_approx -> real option
end

structure Real :> REAL where type real = real = struct
  type real = real
  structure Math = Math
  val radix = 2 and precision = 53
  val maxFinite = 1.0 and minPos = 1.0 and minNormalPos = 1.0 and posInf = 1.0 and negInf = ~1.0
  val op + : real * real -> real = op +
  val op - : real * real -> real = op -
  val op * : real * real -> real = op *
  val op / = op /
  val rem = any and *+ = any and *- = any
  val ~ : real -> real = ~
  val abs : real -> real = abs
  val min = any and max = any and sign = any and signBit = any and sameSign = any and copySign = any
  val compare = any and compareReal = any
  val op < : real * real -> bool = op <
  val op <= : real * real -> bool = op <=
  val op > : real * real -> bool = op >
  val op >= : real * real -> bool = op >=
  val == = any and != = any and ?= = any and unordered = any
  val isFinite = any and isNan = any and isNormal = any and class = any
  val toManExp = any and fromManExp = any and split = any and realMod = any and nextAfter = any and checkFloat = any
  val realFloor = any and realCeil = any and realTrunc = any and realRound = any
  val floor = floor and ceil = any and trunc = any and round = any
  val toInt = any and toLargeInt = any and fromInt = real and fromLargeInt = any and toLarge = any and fromLarge = any
  val fmt = any and toString = any and scan = any and fromString = any and toDecimal = any and fromDecimal = any
end

structure LargeReal = Real
structure Real64 = Real
