signature ORDER = sig eqtype t val less : t * t -> bool end
functor Max (O : ORDER) = struct
  datatype result = None | Some of O.t
  fun max (a, None) = a | max (a, Some b) = if O.less (a, b) then b else a
end
