signature A = sig type t end
signature T = sig include A type u = int and 'b t = 'b end
signature U = sig type u = int and t = bool and 'a v = 'a list end
