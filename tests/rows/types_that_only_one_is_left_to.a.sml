structure S = struct val r = ref nil val g = fn x => (r := [x]; ~ x = x) end
structure T = struct val r = ref nil val g = fn x => (r := [x]; ~ x) end
structure U = struct val r = ref nil val g = fn x => (r := [x]; x) end
functor F () = struct val r = ref nil val g = fn x => (r := [x]; ~ x = x) end
