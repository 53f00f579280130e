val is_one = case 2 of 1 => true | _ => false
