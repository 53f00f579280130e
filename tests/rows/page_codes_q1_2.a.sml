functor F () = struct val x = 1 end
structure A = F ()
