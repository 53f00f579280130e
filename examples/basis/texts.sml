(* Characters, strings and substrings. *)

structure Char = struct type char = char end
structure String = struct type string = string end

signature CHAR = sig
  eqtype char
  eqtype string
  val minChar : char
  val maxChar : char
  val maxOrd : int
  val ord : char -> int
  val chr : int -> char
  val succ : char -> char
  val pred : char -> char
  val compare : char * char -> order
  val < : char * char -> bool
  val <= : char * char -> bool
  val > : char * char -> bool
  val >= : char * char -> bool
  val contains : string -> char -> bool
  val notContains : string -> char -> bool
  val isAscii : char -> bool
  val toLower : char -> char
  val toUpper : char -> char
  val isAlpha : char -> bool
  val isAlphaNum : char -> bool
  val isCntrl : char -> bool
  val isDigit : char -> bool
  val isGraph : char -> bool
  val isHexDigit : char -> bool
  val isLower : char -> bool
  val isPrint : char -> bool
  val isSpace : char -> bool
  val isPunct : char -> bool
  val isUpper : char -> bool
  val toString : char -> String.string
  val scan : (Char.char, 'a) StringCvt.reader -> (char, 'a) StringCvt.reader
  val fromString : String.string -> char option
  val toCString : char -> String.string
  val fromCString : String.string -> char option
end

structure Char :> CHAR where type char = char where type string = string = struct
  type char = char
  type string = string
  val minChar = #"\000" and maxChar = #"\255" and maxOrd = 255
  val ord = ord and chr = chr and succ = any and pred = any and compare = any
  val op < : char * char -> bool = op <
  val op <= : char * char -> bool = op <=
  val op > : char * char -> bool = op >
  val op >= : char * char -> bool = op >=
  val contains = any and notContains = any and isAscii = any and toLower = any and toUpper = any
  val isAlpha = any and isAlphaNum = any and isCntrl = any and isDigit = any and isGraph = any and isHexDigit = any
  val isLower = any and isPrint = any and isSpace = any and isPunct = any and isUpper = any
  val toString = any and scan = any and fromString = any and toCString = any and fromCString = any
end

signature STRING = sig
  eqtype string
  eqtype char
  val maxSize : int
  val size : string -> int
  val sub : string * int -> char
  val extract : string * int * int option -> string
  val substring : string * int * int -> string
  val ^ : string * string -> string
  val concat : string list -> string
  val concatWith : string -> string list -> string
  val str : char -> string
  val implode : char list -> string
  val explode : string -> char list
  val map : (char -> char) -> string -> string
  val translate : (char -> string) -> string -> string
  val tokens : (char -> bool) -> string -> string list
  val fields : (char -> bool) -> string -> string list
  val isPrefix : string -> string -> bool
  val isSubstring : string -> string -> bool
  val isSuffix : string -> string -> bool
  val compare : string * string -> order
  val collate : (char * char -> order) -> string * string -> order
  val < : string * string -> bool
  val <= : string * string -> bool
  val > : string * string -> bool
  val >= : string * string -> bool
  val toString : string -> String.string
  val scan : (char, 'a) StringCvt.reader -> (string, 'a) StringCvt.reader
  val fromString : String.string -> string option
  val toCString : string -> String.string
  val fromCString : String.string -> string option
end

structure String :> STRING where type string = string where type char = char = struct
  type string = string
  type char = char
  val maxSize = 1048576
  val size = size and sub = any and extract = any and substring = any
  val op ^ = op ^
  val concat = any and concatWith = any and str = str and implode = any and explode = any
  val map = any and translate = any and tokens = any and fields = any
  val isPrefix = any and isSubstring = any and isSuffix = any and compare = any and collate = any
  val op < : string * string -> bool = op <
  val op <= : string * string -> bool = op <=
  val op > : string * string -> bool = op >
  val op >= : string * string -> bool = op >=
  val toString = any and scan = any and fromString = any and toCString = any and fromCString = any
end

signature SUBSTRING = sig
  type substring
  eqtype char
  eqtype string
  val sub : substring * int -> char
  val size : substring -> int
  val base : substring -> string * int * int
  val extract : string * int * int option -> substring
  val substring : string * int * int -> substring
  val full : string -> substring
  val string : substring -> string
  val isEmpty : substring -> bool
  val getc : substring -> (char * substring) option
  val first : substring -> char option
  val triml : int -> substring -> substring
  val trimr : int -> substring -> substring
  val slice : substring * int * int option -> substring
  val concat : substring list -> string
  val concatWith : string -> substring list -> string
  val explode : substring -> char list
  val isPrefix : string -> substring -> bool
  val isSubstring : string -> substring -> bool
  val isSuffix : string -> substring -> bool
  val compare : substring * substring -> order
  val collate : (char * char -> order) -> substring * substring -> order
  val splitl : (char -> bool) -> substring -> substring * substring
  val splitr : (char -> bool) -> substring -> substring * substring
  val splitAt : substring * int -> substring * substring
  val dropl : (char -> bool) -> substring -> substring
  val dropr : (char -> bool) -> substring -> substring
  val takel : (char -> bool) -> substring -> substring
  val taker : (char -> bool) -> substring -> substring
  val position : string -> substring -> substring * substring
  val span : substring * substring -> substring
  val translate : (char -> string) -> substring -> string
  val tokens : (char -> bool) -> substring -> substring list
  val fields : (char -> bool) -> substring -> substring list
  val app : (char -> unit) -> substring -> unit
  val foldl : (char * 'a -> 'a) -> 'a -> substring -> 'a
  val foldr : (char * 'a -> 'a) -> 'a -> substring -> 'a
end

structure Substring :> SUBSTRING where type char = char where type string = string = struct
  type substring = string * int * int
  type char = char
  type string = string
  val sub = any and size = any and base = any and extract = any and substring = any and full = any and string = any
  val isEmpty = any and getc = any and first = any and triml = any and trimr = any and slice = any
  val concat = any and concatWith = any and explode = any and isPrefix = any and isSubstring = any and isSuffix = any
  val compare = any and collate = any and splitl = any and splitr = any and splitAt = any
  val dropl = any and dropr = any and takel = any and taker = any and position = any and span = any
  val translate = any and tokens = any and fields = any and app = any and foldl = any and foldr = any
end
