fn 0xA => 1 | 10 => 2 | _ => 3;
fn true => 1;