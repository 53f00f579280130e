structure Word = struct
  type key = string
  fun less (a : string, b) = a < b
end

(* how often each word stands in a list, whichever maker the maps are of *)
functor Count (M : MAP where type key = string) = struct
  fun count nil = M.empty
    | count (word :: words) =
        let val rest = count words
        in M.insert (word, 1 + M.find (word, rest, 0), rest) end
  fun different map = M.fold (fn (_, _, n) => n + 1) 0 map
end

structure Small = ListMap (Word)
structure Large = TreeMap (Word)
structure CountSmall = Count (Small)
structure CountLarge = Count (Large)

val few = CountSmall.count ["a", "rose", "is", "a", "rose"]
val many = CountLarge.count ["a", "rose", "is", "a", "rose"]
val roses = Large.find ("rose", many, 0)
val mixed = Large.find ("rose", few, 0)
val Large.Leaf = many
