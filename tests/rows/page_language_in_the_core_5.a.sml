fun 'a raiser (x : 'a) = let exception Holds of 'a in raise Holds x end
exception Any of 'a
