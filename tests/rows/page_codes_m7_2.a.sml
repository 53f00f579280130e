structure S : sig exception X end = struct exception X end
