structure A = F ()
