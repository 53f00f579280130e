datatype t = C of nope v withtype 'a v = int
datatype t = C of (nope, int) v withtype ('a, 'b) v = 'b
datatype t = C of (nope, bad) v withtype ('a, 'b) v = 'b * 'a
datatype t = C of nope v withtype 'a v = bad * 'a
datatype t = C of nope v withtype 'a v = 'a * bad
datatype t = C of nope withtype v = bad
datatype t = C of int withtype v = bad
datatype t = C of (nope, int) v withtype 'a v = int
datatype t = C of (int, int) v withtype 'a v = int
datatype t = C of w v and u = D of w withtype 'a v = 'a list and w = t
