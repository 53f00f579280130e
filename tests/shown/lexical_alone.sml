val x = 1;
   .
