structure D :> sig type u val d : u end = struct type u = int val d = 1 end
