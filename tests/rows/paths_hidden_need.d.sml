structure T = struct structure U = S end
