structure S : sig exception X end = struct val X = 3 end
