structure S = struct val n = 1 end
