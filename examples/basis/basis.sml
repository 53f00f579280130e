(* What a program needs: every structure and signature of the other units, and the top level. A unit exports what its own
   declarations bind, so each is bound here again. *)

signature ARRAY = ARRAY and ARRAY2 = ARRAY2 and ARRAY_SLICE = ARRAY_SLICE and BIN_IO = BIN_IO and BOOL = BOOL
signature BYTE = BYTE and CHAR = CHAR and COMMAND_LINE = COMMAND_LINE and DATE = DATE and GENERAL = GENERAL
signature IEEE_REAL = IEEE_REAL and IMPERATIVE_IO = IMPERATIVE_IO and INTEGER = INTEGER and INT_INF = INT_INF and IO = IO
signature LIST = LIST and LIST_PAIR = LIST_PAIR and MATH = MATH and MONO_ARRAY = MONO_ARRAY
signature MONO_ARRAY_SLICE = MONO_ARRAY_SLICE and MONO_VECTOR = MONO_VECTOR and MONO_VECTOR_SLICE = MONO_VECTOR_SLICE
signature OPTION = OPTION and OS = OS and OS_FILE_SYS = OS_FILE_SYS and OS_PATH = OS_PATH and OS_PROCESS = OS_PROCESS
signature REAL = REAL and STREAM_IO = STREAM_IO and STRING = STRING and STRING_CVT = STRING_CVT and SUBSTRING = SUBSTRING
signature TEXT_IO = TEXT_IO and TEXT_STREAM_IO = TEXT_STREAM_IO and TIME = TIME and TIMER = TIMER
signature VECTOR = VECTOR and VECTOR_SLICE = VECTOR_SLICE and WORD = WORD

structure Array = Array and Array2 = Array2 and ArraySlice = ArraySlice and BinIO = BinIO and Bool = Bool
structure BoolArray = BoolArray and BoolArraySlice = BoolArraySlice and BoolVector = BoolVector
structure BoolVectorSlice = BoolVectorSlice and Byte = Byte and Char = Char and CharArray = CharArray
structure CharArraySlice = CharArraySlice and CharVector = CharVector and CharVectorSlice = CharVectorSlice
structure CommandLine = CommandLine and Date = Date and FixedInt = FixedInt and General = General and IEEEReal = IEEEReal
structure IO = IO and Int = Int and Int32 = Int32 and Int64 = Int64 and IntArray = IntArray
structure IntArraySlice = IntArraySlice and IntInf = IntInf and IntVector = IntVector and IntVectorSlice = IntVectorSlice
structure LargeInt = LargeInt and LargeReal = LargeReal and LargeWord = LargeWord and List = List and ListPair = ListPair
structure Math = Math and OS = OS and Option = Option and Position = Position and Real = Real and Real64 = Real64
structure RealArray = RealArray and RealArraySlice = RealArraySlice and RealVector = RealVector
structure RealVectorSlice = RealVectorSlice and String = String and StringCvt = StringCvt and Substring = Substring
structure SysWord = SysWord and TextIO = TextIO and Time = Time and Timer = Timer and Vector = Vector
structure VectorSlice = VectorSlice and Word = Word and Word8 = Word8 and Word8Array = Word8Array
structure Word8ArraySlice = Word8ArraySlice and Word8Vector = Word8Vector and Word8VectorSlice = Word8VectorSlice
structure Word32 = Word32 and Word64 = Word64

datatype order = datatype General.order
datatype option = datatype Option.option
type substring = Substring.substring
type 'a vector = 'a Vector.vector
type 'a array = 'a Array.array

exception Bind = General.Bind and Chr = General.Chr and Div = General.Div and Domain = General.Domain
exception Empty = List.Empty and Fail = General.Fail and Match = General.Match and Option = Option.Option
exception Overflow = General.Overflow and Size = General.Size and Span = General.Span and Subscript = General.Subscript

val exnName = General.exnName and exnMessage = General.exnMessage
val getOpt = Option.getOpt and isSome = Option.isSome and valOf = Option.valOf
val app = List.app and foldl = List.foldl and foldr = List.foldr and hd = List.hd and null = List.null and tl = List.tl
val ceil = Real.ceil and round = Real.round and trunc = Real.trunc
val concat = String.concat and explode = String.explode and implode = String.implode and substring = String.substring
val vector = Vector.fromList
fun use (_ : string) = ()
