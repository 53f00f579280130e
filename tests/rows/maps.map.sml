signature KEY = sig
  type key
  val less : key * key -> bool
end

(* finite maps; insert replaces, and find gives its last argument where the key isn't there *)
signature MAP = sig
  type key
  type 'a map
  val empty : 'a map
  val insert : key * 'a * 'a map -> 'a map
  val find : key * 'a map * 'a -> 'a
  val fold : (key * 'a * 'b -> 'b) -> 'b -> 'a map -> 'b
end
