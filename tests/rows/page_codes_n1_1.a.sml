structure A : S = struct end
