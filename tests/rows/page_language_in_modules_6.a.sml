structure S = struct signature T = sig end end
