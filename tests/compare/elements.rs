//! Elements, with the numbers of ES5.1 section 7.8.3 and the signs of 7.7: blanks and comments, then the element that stands there under a
//! slash choice. A reserved word is cut as a word; what it is in its place is asked afterwards.

/// A refusal: number and place.
pub type Fault = (u32, usize);

#[derive(Clone, Copy, PartialEq, Eq, Debug)]
pub enum Class {
    Name,
    Number,
    Text,
    Pattern,
    /// A sign or a delimiter, by its spelling.
    Sign(&'static str),
    /// A reserved word, by its spelling.
    Word(&'static str),
    /// A reserved word that is a name.
    WordAsName,
}

#[derive(Clone, Copy, PartialEq, Eq, Debug)]
pub struct Element {
    pub class: Class,
    pub first: usize,
    pub end: usize,
    /// A line end lies between it and the element before, or the text's start.
    pub line: bool,
}

impl Element {
    pub fn is_closer(self) -> bool {
        matches!(self.class, Class::Sign(")" | "}" | "]"))
    }

    /// What the element may be: a reserved word may be a name, and one that is not taken can be nothing else.
    pub fn readings(self) -> Vec<Element> {
        let name = Element { class: Class::WordAsName, ..self };
        match self.class {
            Class::Word(word) if is_taken(word) => vec![self, name],
            Class::Word(_) => vec![name],
            _ => vec![self],
        }
    }
}

/// The 36 reserved words: keywords, future reserved words, `null` and the truth values.
pub const WORDS: [&str; 36] = [
    "break", "case", "catch", "continue", "debugger", "default", "delete", "do", "else", "finally", "for", "function", "if", "in", "instanceof", "new", "return",
    "switch", "this", "throw", "try", "typeof", "var", "void", "while", "with", "class", "const", "enum", "export", "extends", "import", "super", "null", "true",
    "false",
];

/// The future reserved words, which stand in no form.
const FUTURE_WORDS: [&str; 7] = ["class", "const", "enum", "export", "extends", "import", "super"];

/// The words that are operators, and those that are values.
pub const WORD_OPERATORS: [&str; 6] = ["delete", "void", "typeof", "new", "in", "instanceof"];
pub const VALUE_WORDS: [&str; 4] = ["this", "null", "true", "false"];

/// Is a reserved word taken where it is no name?
pub fn is_taken(word: &str) -> bool {
    !FUTURE_WORDS.contains(&word)
}

/// The 48 signs: punctuators and the two that divide.
pub const SIGNS: [&str; 48] = [
    "{", "}", "(", ")", "[", "]", ".", ";", ",", "<", ">", "<=", ">=", "==", "!=", "===", "!==", "+", "-", "*", "%", "++", "--", "<<", ">>", ">>>", "&", "|", "^",
    "!", "~", "&&", "||", "?", ":", "=", "+=", "-=", "*=", "%=", "<<=", ">>=", ">>>=", "&=", "|=", "^=", "/", "/=",
];

fn is_blank(byte: u8) -> bool {
    matches!(byte, 0x09 | 0x0b | 0x0c | 0x20)
}

fn is_line_end(byte: u8) -> bool {
    matches!(byte, 0x0a | 0x0d)
}

fn is_legal(byte: u8) -> bool {
    is_blank(byte) || is_line_end(byte) || (0x21..=0x7e).contains(&byte)
}

fn is_name_start(byte: u8) -> bool {
    byte.is_ascii_alphabetic() || byte == b'$' || byte == b'_'
}

fn is_name_byte(byte: u8) -> bool {
    is_name_start(byte) || byte.is_ascii_digit()
}

fn byte(text: &[u8], at: usize) -> Option<u8> {
    text.get(at).copied()
}

/// Blanks, line ends and comments from `at` on: the place behind them, and whether a line end is among them.
pub fn gap(text: &[u8], mut at: usize) -> Result<(usize, bool), Fault> {
    let mut line = false;
    loop {
        match (byte(text, at), byte(text, at + 1)) {
            (Some(b), _) if is_blank(b) => at += 1,
            (Some(b), _) if is_line_end(b) => {
                line = true;
                at += 1;
            }
            (Some(b'/'), Some(b'/')) => {
                while let Some(b) = byte(text, at) {
                    if is_line_end(b) {
                        break;
                    }
                    if !is_legal(b) {
                        return Err((2, at));
                    }
                    at += 1;
                }
            }
            (Some(b'/'), Some(b'*')) => {
                let open = at;
                at += 2;
                loop {
                    match byte(text, at) {
                        None => return Err((5, open)),
                        Some(b) if !is_legal(b) => return Err((2, at)),
                        Some(b'*') if byte(text, at + 1) == Some(b'/') => break,
                        Some(b) => line |= is_line_end(b),
                    }
                    at += 1;
                }
                at += 2;
            }
            _ => return Ok((at, line)),
        }
    }
}

/// Place behind a string whose opening quote stands at `first`.
fn string_end(text: &[u8], first: usize) -> Result<usize, Fault> {
    let mut at = first + 1;
    loop {
        match byte(text, at) {
            None => return Err((3, first)),
            Some(b) if is_line_end(b) => return Err((3, first)),
            Some(b) if !is_legal(b) => return Err((2, at)),
            Some(b) if b == text[first] => return Ok(at + 1),
            Some(b'\\') => match byte(text, at + 1) {
                None => return Err((3, first)),
                Some(b) if is_line_end(b) => return Err((3, first)),
                Some(b) if !is_legal(b) => return Err((2, at + 1)),
                Some(_) => at += 2,
            },
            Some(_) => at += 1,
        }
    }
}

/// Place behind a regular expression, flags included, whose slash stands at `first`.
fn pattern_end(text: &[u8], first: usize) -> Result<usize, Fault> {
    let mut at = first + 1;
    let mut class = false;
    loop {
        match byte(text, at) {
            None => return Err((4, first)),
            Some(b) if is_line_end(b) => return Err((4, first)),
            Some(b) if !is_legal(b) => return Err((2, at)),
            Some(b'\\') => match byte(text, at + 1) {
                None => return Err((4, first)),
                Some(b) if is_line_end(b) => return Err((4, first)),
                Some(b) if !is_legal(b) => return Err((2, at + 1)),
                Some(_) => at += 2,
            },
            Some(b'[') => {
                class = true;
                at += 1;
            }
            Some(b']') => {
                class = false;
                at += 1;
            }
            Some(b'/') if !class => break,
            Some(_) => at += 1,
        }
    }
    at += 1;
    while byte(text, at).is_some_and(is_name_byte) {
        at += 1;
    }
    Ok(at)
}

/// Place behind the digits from `at` on that pass a test.
fn digits_end(text: &[u8], mut at: usize, is_digit: fn(&u8) -> bool) -> usize {
    while text.get(at).is_some_and(is_digit) {
        at += 1;
    }
    at
}

/// Place behind the exponent at `at`, if one stands there: ExponentPart of ES5.1 7.8.3.
fn exponent_end(text: &[u8], at: usize) -> Option<usize> {
    if !matches!(byte(text, at), Some(b'e' | b'E')) {
        return None;
    }
    let digits = if matches!(byte(text, at + 1), Some(b'+' | b'-')) { at + 2 } else { at + 1 };
    let end = digits_end(text, digits, u8::is_ascii_digit);
    (end > digits).then_some(end)
}

/// Place behind the longest NumericLiteral of ES5.1 7.8.3 that starts with a digit, or with a dot and a digit; the byte behind it must be neither digit nor
/// name byte.
fn number_end(text: &[u8], first: usize) -> Result<usize, Fault> {
    let hexadecimal = digits_end(text, first + 2, u8::is_ascii_hexdigit);
    let end = if text[first] == b'0' && matches!(byte(text, first + 1), Some(b'x' | b'X')) && hexadecimal > first + 2 {
        hexadecimal
    } else {
        let integer = if text[first] == b'0' { first + 1 } else { digits_end(text, first, u8::is_ascii_digit) };
        let decimal = if byte(text, integer) == Some(b'.') { digits_end(text, integer + 1, u8::is_ascii_digit) } else { integer };
        exponent_end(text, decimal).unwrap_or(decimal)
    };
    match byte(text, end) {
        Some(b) if is_name_byte(b) => Err((6, first)),
        _ => Ok(end),
    }
}

fn longest_sign(text: &[u8], at: usize) -> Option<&'static str> {
    SIGNS.into_iter().filter(|sign| text[at..].starts_with(sign.as_bytes())).max_by_key(|sign| sign.len())
}

/// Is a slash met at `at`, a place behind a gap?
pub fn slash_met(text: &[u8], at: usize) -> bool {
    byte(text, at) == Some(b'/')
}

/// The element at a place behind a gap; `pattern` settles a slash met there.
pub fn element(text: &[u8], first: usize, line: bool, pattern: bool) -> Result<Element, Fault> {
    let made = |class, end| Ok(Element { class, first, end, line });
    let start = text[first];
    if is_name_start(start) {
        let end = (first..text.len()).find(|&at| !is_name_byte(text[at])).unwrap_or(text.len());
        return match WORDS.into_iter().find(|word| word.as_bytes() == &text[first..end]) {
            Some(word) => made(Class::Word(word), end),
            None => made(Class::Name, end),
        };
    }
    if start.is_ascii_digit() || (start == b'.' && byte(text, first + 1).is_some_and(|b| b.is_ascii_digit())) {
        return made(Class::Number, number_end(text, first)?);
    }
    if start == b'\'' || start == b'"' {
        return made(Class::Text, string_end(text, first)?);
    }
    if start == b'/' && pattern {
        return made(Class::Pattern, pattern_end(text, first)?);
    }
    match longest_sign(text, first) {
        Some(sign) => made(Class::Sign(sign), first + sign.len()),
        None => Err((2, first)),
    }
}
