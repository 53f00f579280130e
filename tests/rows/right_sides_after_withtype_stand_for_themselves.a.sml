datatype 'a t = A of u withtype u = 'a list
datatype 'a t = A of 'a u withtype 'b u = 'a * 'b
datatype 'a t = A of 'a u withtype 'b u = 'b list
datatype 'a t = A of int | B of 'a u withtype 'a u = 'a * int
