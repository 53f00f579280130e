exception X of int
type 'a pair = 'a * 'a
