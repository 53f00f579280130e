fn true => 1;
