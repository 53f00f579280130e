// The same loop in plain Rust, to compare times with: reads a unit from standard input, and prints how many tokens it
// has, of how many bytes, and whether it ends in a fault. It has no reserved words, no limits and no long identifiers.
use std::io::Read;

#[derive(Debug)]
enum End {
    Whole,
    Fault(usize),
}

struct Token {
    start: usize,
    end: usize,
}

fn is_letter(b: u8) -> bool {
    b.is_ascii_alphanumeric() || b == b'_' || b == b'\''
}

fn is_symbol(b: u8) -> bool {
    b"!%&$#+-/:<=>?@\\~`^|*".contains(&b)
}

fn run(text: &[u8], from: usize, test: fn(u8) -> bool) -> usize {
    from + text[from..].iter().take_while(|b| test(**b)).count()
}

fn comment(text: &[u8], from: usize) -> Option<usize> {
    let (mut at, mut depth) = (from, 0);
    while at + 1 < text.len() {
        match &text[at..at + 2] {
            b"(*" => (at, depth) = (at + 2, depth + 1),
            b"*)" if depth == 1 => return Some(at + 2),
            b"*)" => (at, depth) = (at + 2, depth - 1),
            _ => at += 1,
        }
    }
    None
}

fn string(text: &[u8], from: usize) -> Option<usize> {
    let mut at = from + 1;
    while at < text.len() {
        match text[at] {
            b'"' => return Some(at + 1),
            b'\\' if text.get(at + 1).map_or(false, u8::is_ascii_whitespace) => {
                at = run(text, at + 1, |b| b.is_ascii_whitespace());
                if text.get(at) != Some(&b'\\') {
                    return None;
                }
                at += 1;
            }
            b'\\' => at += 2,
            b'\n' => return None,
            _ => at += 1,
        }
    }
    None
}

fn lex(text: &[u8]) -> (Vec<Token>, End) {
    let mut tokens = Vec::new();
    let mut at = 0;
    while at < text.len() {
        let b = text[at];
        let end = if b.is_ascii_whitespace() {
            at = run(text, at, |b| b.is_ascii_whitespace());
            continue;
        } else if text[at..].starts_with(b"(*") {
            match comment(text, at) {
                Some(end) => at = end,
                None => return (tokens, End::Fault(at)),
            }
            continue;
        } else if b == b'"' {
            match string(text, at) {
                Some(end) => end,
                None => return (tokens, End::Fault(at)),
            }
        } else if b.is_ascii_digit() {
            run(text, at, |b| b.is_ascii_digit())
        } else if is_letter(b) {
            run(text, at, is_letter)
        } else if is_symbol(b) {
            run(text, at, is_symbol)
        } else if b"()[]{},;.".contains(&b) {
            at + 1
        } else {
            return (tokens, End::Fault(at));
        };
        tokens.push(Token { start: at, end });
        at = end;
    }
    (tokens, End::Whole)
}

fn main() {
    let mut text = Vec::new();
    std::io::stdin().read_to_end(&mut text).expect("a unit");
    let (tokens, end) = lex(&text);
    let bytes: usize = tokens.iter().map(|token| token.end - token.start).sum();
    println!("{} {} {:?}", tokens.len(), bytes, end);
}
