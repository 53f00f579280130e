signature S = sig datatype d = C end where type d = int
