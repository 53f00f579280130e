signature ORDER = sig
  type t
  val less : t * t -> bool
end

structure IntOrder : ORDER = struct
  type t = int
  fun less (x : int, y) = x < y
end

structure StringOrder : ORDER = struct
  type t = string
  fun less (x : string, y) = x < y
end
