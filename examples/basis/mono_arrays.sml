(* Vectors, arrays and slices of one type, and bytes. *)

signature MONO_VECTOR = sig
  type vector
  type elem
  val maxLen : int
  val fromList : elem list -> vector
  val tabulate : int * (int -> elem) -> vector
  val length : vector -> int
  val sub : vector * int -> elem
  val update : vector * int * elem -> vector
  val concat : vector list -> vector
  val appi : (int * elem -> unit) -> vector -> unit
  val app : (elem -> unit) -> vector -> unit
  val mapi : (int * elem -> elem) -> vector -> vector
  val map : (elem -> elem) -> vector -> vector
  val foldli : (int * elem * 'a -> 'a) -> 'a -> vector -> 'a
  val foldri : (int * elem * 'a -> 'a) -> 'a -> vector -> 'a
  val foldl : (elem * 'a -> 'a) -> 'a -> vector -> 'a
  val foldr : (elem * 'a -> 'a) -> 'a -> vector -> 'a
  val findi : (int * elem -> bool) -> vector -> (int * elem) option
  val find : (elem -> bool) -> vector -> elem option
  val exists : (elem -> bool) -> vector -> bool
  val all : (elem -> bool) -> vector -> bool
  val collate : (elem * elem -> order) -> vector * vector -> order
end

signature MONO_ARRAY = sig
  eqtype array
  type elem
  type vector
  val maxLen : int
  val array : int * elem -> array
  val fromList : elem list -> array
  val vector : array -> vector
  val tabulate : int * (int -> elem) -> array
  val length : array -> int
  val sub : array * int -> elem
  val update : array * int * elem -> unit
  val copy : {src : array, dst : array, di : int} -> unit
  val copyVec : {src : vector, dst : array, di : int} -> unit
  val appi : (int * elem -> unit) -> array -> unit
  val app : (elem -> unit) -> array -> unit
  val modifyi : (int * elem -> elem) -> array -> unit
  val modify : (elem -> elem) -> array -> unit
  val foldli : (int * elem * 'a -> 'a) -> 'a -> array -> 'a
  val foldri : (int * elem * 'a -> 'a) -> 'a -> array -> 'a
  val foldl : (elem * 'a -> 'a) -> 'a -> array -> 'a
  val foldr : (elem * 'a -> 'a) -> 'a -> array -> 'a
  val findi : (int * elem -> bool) -> array -> (int * elem) option
  val find : (elem -> bool) -> array -> elem option
  val exists : (elem -> bool) -> array -> bool
  val all : (elem -> bool) -> array -> bool
  val collate : (elem * elem -> order) -> array * array -> order
end

signature MONO_VECTOR_SLICE = sig
  type elem
  type vector
  type slice
  val length : slice -> int
  val sub : slice * int -> elem
  val full : vector -> slice
  val slice : vector * int * int option -> slice
  val subslice : slice * int * int option -> slice
  val base : slice -> vector * int * int
  val vector : slice -> vector
  val concat : slice list -> vector
  val isEmpty : slice -> bool
  val getItem : slice -> (elem * slice) option
  val appi : (int * elem -> unit) -> slice -> unit
  val app : (elem -> unit) -> slice -> unit
  val mapi : (int * elem -> elem) -> slice -> vector
  val map : (elem -> elem) -> slice -> vector
  val foldli : (int * elem * 'a -> 'a) -> 'a -> slice -> 'a
  val foldri : (int * elem * 'a -> 'a) -> 'a -> slice -> 'a
  val foldl : (elem * 'a -> 'a) -> 'a -> slice -> 'a
  val foldr : (elem * 'a -> 'a) -> 'a -> slice -> 'a
  val findi : (int * elem -> bool) -> slice -> (int * elem) option
  val find : (elem -> bool) -> slice -> elem option
  val exists : (elem -> bool) -> slice -> bool
  val all : (elem -> bool) -> slice -> bool
  val collate : (elem * elem -> order) -> slice * slice -> order
end

signature MONO_ARRAY_SLICE = sig
  type elem
  type array
  type slice
  type vector
  type vector_slice
  val length : slice -> int
  val sub : slice * int -> elem
  val update : slice * int * elem -> unit
  val full : array -> slice
  val slice : array * int * int option -> slice
  val subslice : slice * int * int option -> slice
  val base : slice -> array * int * int
  val vector : slice -> vector
  val copy : {src : slice, dst : array, di : int} -> unit
  val copyVec : {src : vector_slice, dst : array, di : int} -> unit
  val isEmpty : slice -> bool
  val getItem : slice -> (elem * slice) option
  val appi : (int * elem -> unit) -> slice -> unit
  val app : (elem -> unit) -> slice -> unit
  val modifyi : (int * elem -> elem) -> slice -> unit
  val modify : (elem -> elem) -> slice -> unit
  val foldli : (int * elem * 'a -> 'a) -> 'a -> slice -> 'a
  val foldri : (int * elem * 'a -> 'a) -> 'a -> slice -> 'a
  val foldl : (elem * 'a -> 'a) -> 'a -> slice -> 'a
  val foldr : (elem * 'a -> 'a) -> 'a -> slice -> 'a
  val findi : (int * elem -> bool) -> slice -> (int * elem) option
  val find : (elem -> bool) -> slice -> elem option
  val exists : (elem -> bool) -> slice -> bool
  val all : (elem -> bool) -> slice -> bool
  val collate : (elem * elem -> order) -> slice * slice -> order
end

(* The four structures for elements of one type. Characters have vectors and slices that are there already, so these two
   types are arguments. *)
functor Mono (type elem type vector type slice) :> sig
  structure Vector : MONO_VECTOR where type elem = elem where type vector = vector
  structure VectorSlice : MONO_VECTOR_SLICE where type elem = elem where type vector = vector where type slice = slice
  structure Array : MONO_ARRAY where type elem = elem where type vector = vector
  structure ArraySlice : MONO_ARRAY_SLICE
    where type elem = elem where type vector = vector where type vector_slice = slice where type array = Array.array
end = struct
  structure Vector = struct
    type elem = elem
    type vector = vector
    val maxLen = 1048576
    val fromList = any and tabulate = any and length = any and sub = any and update = any and concat = any
    val appi = any and app = any and mapi = any and map = any
    val foldli = any and foldri = any and foldl = any and foldr = any
    val findi = any and find = any and exists = any and all = any and collate = any
  end
  structure VectorSlice = struct
    type elem = elem
    type vector = vector
    type slice = slice
    val length = any and sub = any and full = any and slice = any and subslice = any and base = any and vector = any
    val concat = any and isEmpty = any and getItem = any and appi = any and app = any and mapi = any and map = any
    val foldli = any and foldri = any and foldl = any and foldr = any
    val findi = any and find = any and exists = any and all = any and collate = any
  end
  structure Array = struct
    type elem = elem
    type vector = vector
    type array = elem list ref
    val maxLen = 1048576
    val array = any and fromList = any and vector = any and tabulate = any and length = any and sub = any
    val update = any and copy = any and copyVec = any and appi = any and app = any and modifyi = any and modify = any
    val foldli = any and foldri = any and foldl = any and foldr = any
    val findi = any and find = any and exists = any and all = any and collate = any
  end
  structure ArraySlice = struct
    type elem = elem
    type vector = vector
    type vector_slice = slice
    type array = Array.array
    type slice = elem list
    val length = any and sub = any and update = any and full = any and slice = any and subslice = any and base = any
    val vector = any and copy = any and copyVec = any and isEmpty = any and getItem = any
    val appi = any and app = any and modifyi = any and modify = any
    val foldli = any and foldri = any and foldl = any and foldr = any
    val findi = any and find = any and exists = any and all = any and collate = any
  end
end

(* new types of vectors and slices; vectors of what admits equality admit it *)
functor Vectors (eqtype elem) :> sig eqtype vector type slice end = struct
  type vector = elem list
  type slice = elem list
end

structure Chars = Mono (type elem = char type vector = string type slice = Substring.substring)
structure CharVector = Chars.Vector
structure CharVectorSlice = Chars.VectorSlice
structure CharArray = Chars.Array
structure CharArraySlice = Chars.ArraySlice

structure Made = Vectors (type elem = Word8.word)
structure Bytes = Mono (open Made type elem = Word8.word)
structure Word8Vector = Bytes.Vector
structure Word8VectorSlice = Bytes.VectorSlice
structure Word8Array = Bytes.Array
structure Word8ArraySlice = Bytes.ArraySlice

structure Made = Vectors (type elem = int)
structure Ints = Mono (open Made type elem = int)
structure IntVector = Ints.Vector
structure IntVectorSlice = Ints.VectorSlice
structure IntArray = Ints.Array
structure IntArraySlice = Ints.ArraySlice

structure Made = Vectors (type elem = bool)
structure Bools = Mono (open Made type elem = bool)
structure BoolVector = Bools.Vector
structure BoolVectorSlice = Bools.VectorSlice
structure BoolArray = Bools.Array
structure BoolArraySlice = Bools.ArraySlice

structure Reals = Mono (type elem = real type vector = real Vector.vector type slice = real VectorSlice.slice)
structure RealVector = Reals.Vector
structure RealVectorSlice = Reals.VectorSlice
structure RealArray = Reals.Array
structure RealArraySlice = Reals.ArraySlice

signature BYTE = sig
  val byteToChar : Word8.word -> char
  val charToByte : char -> Word8.word
  val bytesToString : Word8Vector.vector -> string
  val stringToBytes : string -> Word8Vector.vector
  val unpackStringVec : Word8VectorSlice.slice -> string
  val unpackString : Word8ArraySlice.slice -> string
  val packString : Word8Array.array * int * Substring.substring -> unit
end

structure Byte :> BYTE = struct
  val byteToChar = any and charToByte = any and bytesToString = any and stringToBytes = any
  val unpackStringVec = any and unpackString = any and packString = any
end
