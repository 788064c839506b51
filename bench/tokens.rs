//! The tokens of programs, cut by hand: the least that any reader of programs does.

/// A token of the language.
pub enum Token {
    Word(String),
    Integer(i64),
    Object(i64),
    Text(String),
    Mark(&'static str),
}

impl Token {
    /// A number itself, and of anything else how many characters it has.
    pub fn worth(&self) -> i64 {
        match self {
            Token::Integer(number) | Token::Object(number) => *number,
            Token::Word(text) | Token::Text(text) => text.len() as i64,
            Token::Mark(mark) => mark.len() as i64,
        }
    }
}

/// Why a text is no row of tokens.
pub enum Fault {
    Character,
    Unclosed,
    Number,
}

// The longer marks come first.
const MARKS: [&str; 32] = [
    "==", "!=", "<=", ">=", "&&", "||", "=>", "..", "=", "!", "<", ">", "+", "-", "*", "/", "%", "^", "?", "|", "@", "$", ".", ":", ",", ";", "(", ")", "[",
    "]", "{", "}",
];
const QUOTES: [&str; 2] = ["`", "'"];

/// All tokens of a text, or the first fault with its line.
pub fn tokens(text: &str) -> Result<Vec<Token>, (Fault, usize)> {
    let mut found = Vec::new();
    let mut line = 1;
    let mut rest = text;
    while let Some(first) = rest.bytes().next() {
        let (token, behind) = match first {
            b'\n' => {
                line += 1;
                rest = &rest[1..];
                continue;
            }
            b' ' | b'\t' | b'\r' => {
                rest = &rest[1..];
                continue;
            }
            b'"' => quoted(rest),
            b'#' => object(rest),
            b'0'..=b'9' => integer(rest).map(|(number, behind)| (Token::Integer(number), behind)),
            b'a'..=b'z' | b'A'..=b'Z' | b'_' => Ok(word(rest)),
            _ => mark(rest),
        }
        .map_err(|fault| (fault, line))?;
        found.push(token);
        rest = behind;
    }
    Ok(found)
}

fn split(text: &str, is_in: impl Fn(u8) -> bool) -> (&str, &str) {
    text.split_at(text.bytes().position(|byte| !is_in(byte)).unwrap_or(text.len()))
}

fn word(rest: &str) -> (Token, &str) {
    let (word, behind) = split(rest, |byte| byte.is_ascii_alphanumeric() || byte == b'_');
    (Token::Word(word.to_ascii_lowercase()), behind)
}

fn integer(rest: &str) -> Result<(i64, &str), Fault> {
    let (digits, behind) = split(rest, |byte| byte.is_ascii_digit());
    let number = digits.parse().map_err(|_| Fault::Number)?;
    if number <= 1 << 31 { Ok((number, behind)) } else { Err(Fault::Number) }
}

fn object(rest: &str) -> Result<(Token, &str), Fault> {
    let behind = &rest[1..];
    let (sign, digits) = behind.strip_prefix('-').map_or((1, behind), |digits| (-1, digits));
    if !digits.starts_with(|first: char| first.is_ascii_digit()) {
        return Err(Fault::Character);
    }
    let (number, behind) = integer(digits)?;
    Ok((Token::Object(sign * number), behind))
}

fn quoted(rest: &str) -> Result<(Token, &str), Fault> {
    let mut text = String::new();
    let mut characters = rest.char_indices().skip(1);
    while let Some((at, character)) = characters.next() {
        match character {
            '"' => return Ok((Token::Text(text), &rest[at + 1..])),
            '\n' => break,
            '\\' => text.extend(characters.next().map(|(_, escaped)| escaped)),
            _ => text.push(character),
        }
    }
    Err(Fault::Unclosed)
}

fn mark(rest: &str) -> Result<(Token, &str), Fault> {
    let found = MARKS.iter().chain(&QUOTES).find(|mark| rest.starts_with(**mark));
    found.map(|mark| (Token::Mark(mark), &rest[mark.len()..])).ok_or(Fault::Character)
}
