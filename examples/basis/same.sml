(* Which types of the library are one: each value has both. *)
val unit : General.unit = () : unit
val exn : General.exn = Fail "" : exn
val order : General.order = LESS : order
val option : int Option.option = SOME 1 : int option
val bool : Bool.bool = true : bool
val list : int List.list = [1] : int list
val int : Int.int = 1 : int
val large : LargeInt.int = IntInf.pow (2, 10) : IntInf.int
val position : Position.int = OS.FileSys.fileSize "a" : int
val word : Word.word = 0w1 : word
val largeWord : LargeWord.word = SysWord.fromInt 1 : word
val byte = Word8.+ (Word8.fromInt 1, Byte.charToByte #"a") : Word8.word
val real : Real.real = Math.pi : LargeReal.real
val math : Real.Math.real = Math.sqrt 2.0 : Math.real
val char : Char.char = #"a" : String.char
val string : String.string = "a" : Char.string
val chars : CharVector.vector = TextIO.inputAll TextIO.stdIn : TextIO.vector
val elem : CharVector.elem = #"a" : TextIO.elem
val part : Substring.substring = CharVectorSlice.full "a" : substring
val streamed : string = #1 (TextIO.StreamIO.inputAll (TextIO.getInstream TextIO.stdIn))
val vector : int Vector.vector = Array.vector (Array.array (3, 1)) : int vector
val array : int Array.array = Array.fromList [1] : int array
val bytes : Word8Vector.vector = BinIO.inputAll (BinIO.openIn "a") : BinIO.StreamIO.vector
val time : Time.time = Date.toTime (Date.fromTimeLocal (Time.now ()))
val status : OS.Process.status = OS.Process.success

(* which admit equality *)
val equal = (vector = vector, array = array, bytes = bytes, byte = byte, time = time, OS.FileSys.fileId "a" = OS.FileSys.fileId "b")
val arrays = (fn a : RealArray.array => a = a, fn a : CharArray.array => a = a)

(* exceptions of the top level and of the library are the same ones; here a handler takes the initial basis' *)
val caught = (hd nil handle Empty => 0, valOf NONE handle Option => 1, 1 div 0 handle General.Div => 2, List.nth (nil, 0) handle Subscript => 3)
val raised = [Chr, Size, Span, Domain, General.Overflow, Option.Option, List.Empty]
