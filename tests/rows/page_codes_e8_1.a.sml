exception X of 'a
