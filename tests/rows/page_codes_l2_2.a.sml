val s = "no end, \
        \and it goes on"
