val two = Queue.add (2, Queue.add (1, Queue.empty))
val (first, rest) = Queue.next two
fun drain q = (let val (_, rest) = Queue.next q in drain rest end) handle Queue.Empty => q
val wrong = rev two
