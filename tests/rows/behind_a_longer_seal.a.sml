structure S :> sig type t val x : t end = struct type u = bool type t = int * u -> int val x = fn p => 7 end val y = S.z val w = (S.x, 1) val z =
  T.x