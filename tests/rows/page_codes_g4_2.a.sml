val rec none = fn x => x
