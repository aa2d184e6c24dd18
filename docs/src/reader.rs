//! The yardstick of request U3: the library's `read` by hand, in safe Rust, as fast as one look-up a byte makes it. One pass, no allocation.

/// A refusal: its number and its place.
type Fault = (u32, u32);

const MOST_BYTES: usize = 262_144;
const MOST_RECORDS: usize = 16_384;
const DEEPEST: usize = 100;
const WIDTH: usize = 5;

type Record = [u32; WIDTH];

// Kinds of records.
const NAME: u32 = 1;
const WORD: u32 = 2;
const NUMBER: u32 = 3;
const STRING: u32 = 4;
const REGULAR_EXPRESSION: u32 = 5;
const SIGN: u32 = 6;
const PARENTHESES: u32 = 7;
const OBJECT: u32 = 8;
const BLOCK: u32 = 9;
const BRACKETS: u32 = 10;
/// `++` or `--` before its operand, and after it; a `:` that answers a `?`.
const BEFORE: u32 = 11;
const AFTER: u32 = 12;
const ANSWER: u32 = 13;

// Numbers of refusals.
const LONG: u32 = 1;
const STRAY: u32 = 2;
const OPEN_STRING: u32 = 3;
const OPEN_PATTERN: u32 = 4;
const OPEN_COMMENT: u32 = 5;
const BAD_NUMBER: u32 = 6;
const BARRED_WORD: u32 = 7;
const DEEP: u32 = 9;
const WRONG_CLOSER: u32 = 10;
const UNCLOSED: u32 = 11;
const FULL: u32 = 12;

/// Reads a text: the number of its records, which the table then starts with; or, with every cell of the table 0, the number of its first
/// fault times 2^32 and its place. So do the library's calls answer.
pub fn read(text: &[u8], trees: &mut [u32]) -> u64 {
    let answer = if text.len() > MOST_BYTES { Err((LONG, MOST_BYTES as u32)) } else { fill(text, trees.as_chunks_mut().0) };
    answer.map_or_else(
        |(number, place)| {
            trees.fill(0);
            u64::from(number) << 32 | u64::from(place)
        },
        u64::from,
    )
}

// What a byte may be passed over in, one bit each, so that a run takes one look-up a byte.
const IN_NAME: u8 = 1;
/// Blanks; twice that, blanks and line ends.
const IN_BLANKS: u8 = 2;
const IN_BLANKS_AND_LINE_ENDS: u8 = 4;
const IN_BLOCK_COMMENT: u8 = 8;
const IN_SINGLE_QUOTES: u8 = 16;
const IN_DOUBLE_QUOTES: u8 = 32;
const IN_PATTERN: u8 = 64;
const IN_CLASS: u8 = 128;
/// No legal byte of a line ends both of these.
const IN_LINE_COMMENT: u8 = IN_BLOCK_COMMENT | IN_SINGLE_QUOTES;

static RUNS: [u8; 256] = {
    let mut runs = [0; 256];
    let mut index = 0;
    while index < 256 {
        let byte = index as u8;
        if matches!(byte, b'a'..=b'z' | b'A'..=b'Z' | b'0'..=b'9' | b'$' | b'_') {
            runs[index] |= IN_NAME;
        }
        if matches!(byte, 0x09..=0x0d | 0x20) {
            runs[index] |= IN_BLANKS_AND_LINE_ENDS;
        }
        if matches!(byte, 0x09 | 0x0b | 0x0c | 0x20) {
            runs[index] |= IN_BLANKS;
        }
        if matches!(byte, 0x09 | 0x0b | 0x0c | 0x20..=0x7e) {
            if byte != b'*' {
                runs[index] |= IN_BLOCK_COMMENT;
            }
            if !matches!(byte, b'\'' | b'\\') {
                runs[index] |= IN_SINGLE_QUOTES;
            }
            if !matches!(byte, b'"' | b'\\') {
                runs[index] |= IN_DOUBLE_QUOTES;
            }
            if !matches!(byte, b'/' | b'[' | b'\\') {
                runs[index] |= IN_PATTERN;
            }
            if !matches!(byte, b']' | b'\\') {
                runs[index] |= IN_CLASS;
            }
        }
        index += 1;
    }
    runs
};

// Places are 32-bit numbers, as in records: sums of them with small numbers do not overflow a `usize`, which spares checks.
#[inline(always)]
fn byte_at(text: &[u8], at: u32) -> Option<u8> {
    text.get(at as usize).copied()
}

#[inline(always)]
fn byte_after(text: &[u8], at: u32) -> Option<u8> {
    text.get(at as usize + 1).copied()
}

#[inline(always)]
fn eight_at(text: &[u8], at: u32) -> Option<&[u8; 8]> {
    text.get(at as usize..at as usize + 8)?.first_chunk()
}

#[inline(always)]
fn passed_over(byte: u8, run: u8) -> bool {
    RUNS[byte as usize] & run != 0
}

/// The end of a run from a place on.
#[inline(always)]
fn run_end(text: &[u8], mut at: u32, run: u8) -> u32 {
    // Eight bytes with one check of the text's end.
    while let Some(eight) = eight_at(text, at) {
        for (passed, &byte) in eight.iter().enumerate() {
            if !passed_over(byte, run) {
                return at + passed as u32;
            }
        }
        at += 8;
    }
    while byte_at(text, at).is_some_and(|byte| passed_over(byte, run)) {
        at += 1;
    }
    at
}

const LINE_ENDS: u32 = 1 << b'\n' | 1 << b'\r';

/// What a byte starts.
#[derive(Clone, Copy)]
enum Start {
    Nothing,
    Blanks,
    Name,
    Number,
    String,
    Slash,
    Semicolon,
    Comma,
    Colon,
    Question,
    Dot,
    /// Any other sign: an operator.
    Operator,
    Opener,
    Closer,
}

static STARTS: [Start; 256] = {
    let mut starts = [Start::Nothing; 256];
    let mut index = 0;
    while index < 256 {
        starts[index] = match index as u8 {
            0x09..=0x0d | 0x20 => Start::Blanks,
            b'a'..=b'z' | b'A'..=b'Z' | b'$' | b'_' => Start::Name,
            b'0'..=b'9' => Start::Number,
            b'\'' | b'"' => Start::String,
            b'/' => Start::Slash,
            b';' => Start::Semicolon,
            b',' => Start::Comma,
            b':' => Start::Colon,
            b'?' => Start::Question,
            b'.' => Start::Dot,
            b'=' | b'+' | b'-' | b'*' | b'%' | b'<' | b'>' | b'!' | b'&' | b'|' | b'^' | b'~' => Start::Operator,
            b'(' | b'[' | b'{' => Start::Opener,
            b')' | b']' | b'}' => Start::Closer,
            _ => Start::Nothing,
        };
        index += 1;
    }
    starts
};

// A level is one number, so that the level after a tree is found with hardly a branch. Its lowest 16 bits are what the trees so far make of the next
// element; after an operand they are 0.
type Level = u64;

/// A slash opens a regular expression.
const PATTERN: Level = 1;
/// A `{` opens an object: on the same line, and after a line end.
const OBJECT_ON_SAME_LINE: Level = 2;
const OBJECTS: Level = 2 | 4;
/// A reserved word is a name.
const WORD_IS_NAME: Level = 8;
/// Last is `function`, in a statement's place or in an operand's; two bits further up its name, and two further its `( )`.
const STATEMENT_FUNCTION: Level = 16;
const OPERAND_FUNCTION: Level = 32;
const FUNCTION: Level = STATEMENT_FUNCTION | OPERAND_FUNCTION;
const FUNCTION_NAME: Level = FUNCTION << 2;
const OPERAND_FUNCTION_PARENTHESES: Level = OPERAND_FUNCTION << 4;
/// Last is a word that has a head, as `if` has.
const HEAD_WORD: Level = 1024;
/// The bits after an operator, and after `return`.
const OPERATOR: Level = PATTERN | OBJECTS;
const RETURN: Level = PATTERN | OBJECT_ON_SAME_LINE;

// The next 16 bits are of the group: the bits for its first element, and its closer. Above them is the number of `?`s that no `:` has answered.
const ALL_BUT_NEXT: Level = !0xffff;
const GROUP: Level = 0xffff_0000;
const QUESTION: Level = 1 << 32;

const fn group(first: Level, closer: u8) -> Level {
    (closer as Level) << 24 | first << 16 | first
}

const LEVEL_IN_WHOLE_TEXT: Level = group(PATTERN, 0);
const LEVEL_IN_BLOCK: Level = group(PATTERN, b'}');
const LEVEL_IN_OBJECT: Level = group(OPERATOR | WORD_IS_NAME, b'}');
const LEVEL_IN_PARENTHESES: Level = group(OPERATOR, b')');
const LEVEL_IN_BRACKETS: Level = group(OPERATOR, b']');

/// Whether a `{` opens an object, 1 or 0.
#[inline(always)]
fn opens_object(level: Level, newline: u32) -> Level {
    level >> (1 + newline) & 1
}

// The bits after a tree.
#[inline(always)]
fn after_name(level: Level) -> Level {
    (level & FUNCTION) << 2
}

#[inline(always)]
fn after_parentheses(level: Level) -> Level {
    (level & FUNCTION) << 4 | (level & FUNCTION_NAME) << 2 | level / HEAD_WORD & PATTERN
}

#[inline(always)]
fn after_block(level: Level) -> Level {
    PATTERN & !(level / OPERAND_FUNCTION_PARENTHESES)
}

/// The kind of `++` or `--`, and the bits after it.
#[inline(always)]
fn increment(level: Level, newline: u32) -> (u32, Level) {
    if level & PATTERN != 0 || newline != 0 {
        (BEFORE, OPERATOR)
    } else {
        (AFTER, 0)
    }
}

/// Bytes that a sign of more than one has behind the first.
static LENGTHENS: [bool; 256] = {
    let mut lengthens = [false; 256];
    let longer = b"=+-<>&|";
    let mut index = 0;
    while index < longer.len() {
        lengthens[longer[index] as usize] = true;
        index += 1;
    }
    lengthens
};

/// The length of the longest sign at a place where an operator starts.
#[inline(never)]
fn operator_length(text: &[u8], at: u32) -> u32 {
    let rest = &text[at as usize..];
    match rest {
        [b'>', b'>', b'>', b'=', ..] => 4,
        [b'>', b'>', b'>' | b'=', ..] | [b'<', b'<', b'=', ..] | [b'=' | b'!', b'=', b'=', ..] => 3,
        [b'<' | b'>' | b'=' | b'!' | b'+' | b'-' | b'*' | b'%' | b'&' | b'|' | b'^' | b'/', b'=', ..] => 2,
        [b'+', b'+', ..] | [b'-', b'-', ..] | [b'<', b'<', ..] | [b'>', b'>', ..] | [b'&', b'&', ..] | [b'|', b'|', ..] => 2,
        _ => 1,
    }
}

// Reserved words. All but one have at most eight letters, and are told by these as one number.
const LONGEST_WORD: &[u8] = b"instanceof";

const WORDS: [&[u8]; 36] = [
    b"break", b"case", b"catch", b"class", b"const", b"continue", b"debugger", b"default", b"delete", b"do", b"else", b"enum", b"export", b"extends", b"false",
    b"finally", b"for", b"function", b"if", b"import", b"in", LONGEST_WORD, b"new", b"null", b"return", b"super", b"switch", b"this", b"throw", b"true", b"try",
    b"typeof", b"var", b"void", b"while", b"with",
];

/// The lengths of the words that start with a letter, one bit each, by the letter's low five bits.
static WORD_LENGTHS: [u32; 32] = {
    let mut lengths = [0; 32];
    let mut index = 0;
    while index < WORDS.len() {
        let word = WORDS[index];
        lengths[(word[0] & 31) as usize] |= 1 << word.len();
        index += 1;
    }
    lengths
};

const fn letters(word: &[u8]) -> u64 {
    let mut number = 0;
    let mut index = 0;
    while index < word.len() {
        number |= (word[index] as u64) << (8 * index);
        index += 1;
    }
    number
}

/// The letters of a name of at most eight.
#[inline(always)]
fn letters_of(text: &[u8], first: u32, end: u32) -> u64 {
    match eight_at(text, first) {
        Some(&eight) => u64::from_le_bytes(eight) & (u64::MAX >> (64 - 8 * (end - first))),
        None => letters(&text[first as usize..end as usize]),
    }
}

// The words by what may stand behind them. The others are told apart only once a name is found to be one of them.
const RETURN_LETTERS: u64 = letters(b"return");
const FUNCTION_LETTERS: u64 = letters(b"function");
const IF_LETTERS: u64 = letters(b"if");
const OPERATORS: [u64; 5] = [letters(b"delete"), letters(b"in"), letters(b"new"), letters(b"typeof"), letters(b"void")];
const VALUES: [u64; 4] = [letters(b"false"), letters(b"null"), letters(b"this"), letters(b"true")];

static OTHERS: [u64; 23] = [
    letters(b"break"), letters(b"case"), letters(b"catch"), letters(b"class"), letters(b"const"), letters(b"continue"), letters(b"debugger"), letters(b"default"),
    letters(b"do"), letters(b"else"), letters(b"enum"), letters(b"export"), letters(b"extends"), letters(b"finally"), letters(b"for"), letters(b"import"),
    letters(b"super"), letters(b"switch"), letters(b"throw"), letters(b"try"), letters(b"var"), letters(b"while"), letters(b"with"),
];
const CASE_LETTERS: u64 = letters(b"case");
const THROW_LETTERS: u64 = letters(b"throw");
const HEAD_WORDS: [u64; 3] = [letters(b"for"), letters(b"while"), letters(b"with")];
const BARRED: [u64; 7] = [
    letters(b"class"), letters(b"const"), letters(b"enum"), letters(b"export"), letters(b"extends"), letters(b"import"), letters(b"super"),
];

/// The bits after one of the others.
fn after_other(letters: u64, first: u32) -> Result<Level, Fault> {
    match letters {
        CASE_LETTERS => Ok(OPERATOR),
        THROW_LETTERS => Ok(RETURN),
        letters if HEAD_WORDS.contains(&letters) => Ok(PATTERN | HEAD_WORD),
        letters if BARRED.contains(&letters) => Err((BARRED_WORD, first)),
        _ => Ok(PATTERN),
    }
}

/// The kind of what may be a word, where words are no names, and the bits after it.
#[inline(always)]
fn word_or_name(text: &[u8], first: u32, end: u32, level: Level, newline: u32) -> Result<(u32, Level), Fault> {
    if end - first > 8 {
        let word = text[first as usize..end as usize] == *LONGEST_WORD;
        return Ok(if word { (WORD, OPERATOR) } else { (NAME, after_name(level)) });
    }
    match letters_of(text, first, end) {
        RETURN_LETTERS => Ok((WORD, RETURN)),
        FUNCTION_LETTERS => Ok((WORD, PATTERN | STATEMENT_FUNCTION << opens_object(level, newline))),
        IF_LETTERS => Ok((WORD, PATTERN | HEAD_WORD)),
        letters if OPERATORS.contains(&letters) => Ok((WORD, OPERATOR)),
        letters if VALUES.contains(&letters) => Ok((WORD, 0)),
        letters if OTHERS.contains(&letters) => Ok((WORD, after_other(letters, first)?)),
        _ => Ok((NAME, after_name(level))),
    }
}

/// The place behind a string's closing quote.
#[inline(always)]
fn string_end(text: &[u8], first: u32, quote: u8) -> Result<u32, Fault> {
    let run = if quote == b'\'' { IN_SINGLE_QUOTES } else { IN_DOUBLE_QUOTES };
    let mut at = first + 1;
    loop {
        at = run_end(text, at, run);
        match byte_at(text, at) {
            Some(byte) if byte == quote => return Ok(at + 1),
            Some(b'\\') => at = behind_pair(text, at, (OPEN_STRING, first))?,
            other => return Err(fault_inside(other, at, (OPEN_STRING, first))),
        }
    }
}

/// The place behind a regular expression and its flags.
#[inline(always)]
fn pattern_end(text: &[u8], first: u32) -> Result<u32, Fault> {
    let mut run = IN_PATTERN;
    let mut at = first + 1;
    loop {
        at = run_end(text, at, run);
        match byte_at(text, at) {
            Some(b'/') => return Ok(run_end(text, at + 1, IN_NAME)),
            Some(b'[') => run = IN_CLASS,
            Some(b']') => run = IN_PATTERN,
            Some(b'\\') => {
                at = behind_pair(text, at, (OPEN_PATTERN, first))?;
                continue;
            }
            other => return Err(fault_inside(other, at, (OPEN_PATTERN, first))),
        }
        at += 1;
    }
}

/// The place behind a backslash and the byte that it takes.
#[inline(always)]
fn behind_pair(text: &[u8], at: u32, open: Fault) -> Result<u32, Fault> {
    match byte_after(text, at) {
        Some(byte) if passed_over(byte, IN_LINE_COMMENT) => Ok(at + 2),
        other => Err(fault_inside(other, at + 1, open)),
    }
}

/// The fault of what stands in a string or regular expression and is no legal byte of its line.
#[cold]
fn fault_inside(byte: Option<u8>, at: u32, open: Fault) -> Fault {
    match byte {
        None | Some(b'\n' | b'\r') => open,
        Some(_) => (STRAY, at),
    }
}

/// The place behind a block comment, and whether a line end lies in it.
#[inline(always)]
fn block_comment_end(text: &[u8], first: u32) -> Result<(u32, u32), Fault> {
    let mut newline = 0;
    let mut at = first + 2;
    loop {
        at = run_end(text, at, IN_BLOCK_COMMENT);
        match byte_at(text, at) {
            Some(b'*') if byte_after(text, at) == Some(b'/') => return Ok((at + 2, newline)),
            Some(b'*') => {}
            Some(b'\n' | b'\r') => newline = 1,
            Some(_) => return Err((STRAY, at)),
            None => return Err((OPEN_COMMENT, first)),
        }
        at += 1;
    }
}

#[inline(always)]
fn digits_end(text: &[u8], mut at: u32) -> u32 {
    while byte_at(text, at).is_some_and(|byte| byte.is_ascii_digit()) {
        at += 1;
    }
    at
}

/// The place behind a number.
#[inline(always)]
fn number_end(text: &[u8], first: u32, byte: u8) -> Result<u32, Fault> {
    let at = if byte == b'0' { first + 1 } else { digits_end(text, first + 1) };
    match byte_at(text, at) {
        Some(byte) if passed_over(byte, IN_NAME) || byte == b'.' => longer_number_end(text, first, at),
        _ => Ok(at),
    }
}

/// The place behind a number whose first digits end before a place.
#[inline(never)]
fn longer_number_end(text: &[u8], first: u32, digits: u32) -> Result<u32, Fault> {
    let mut at = digits;
    match text[first as usize..] {
        [b'0', b'x' | b'X', byte, ..] if byte.is_ascii_hexdigit() => {
            at = first + 2;
            while byte_at(text, at).is_some_and(|byte| byte.is_ascii_hexdigit()) {
                at += 1;
            }
        }
        _ => {
            if byte_at(text, at) == Some(b'.') {
                at = digits_end(text, at + 1);
            }
            match text[at as usize..] {
                [b'e' | b'E', b'0'..=b'9', ..] => at = digits_end(text, at + 1),
                [b'e' | b'E', b'+' | b'-', b'0'..=b'9', ..] => at = digits_end(text, at + 2),
                _ => {}
            }
        }
    }
    match byte_at(text, at) {
        Some(byte) if passed_over(byte, IN_NAME) => Err((BAD_NUMBER, first)),
        _ => Ok(at),
    }
}

/// An open group: its record, and the level after it.
#[derive(Clone, Copy)]
struct Open {
    record: u32,
    after: Level,
}

/// The reading, with what was stored left in the records where it is refused.
fn fill(text: &[u8], records: &mut [Record]) -> Result<u32, Fault> {
    let room = records.len().min(MOST_RECORDS);
    let records = &mut records[..room];
    // A power of two, so that a masked index needs no check.
    let mut groups = [Open { record: 0, after: 0 }; DEEPEST.next_power_of_two()];
    let mut depth = 0;
    let mut level = LEVEL_IN_WHOLE_TEXT;
    let mut count = 0u32;
    let mut newline = 0;
    let mut at = 0u32;
    while let Some(byte) = byte_at(text, at) {
        let first = at;
        let kind;
        match STARTS[byte as usize] {
            Start::Blanks => {
                newline |= LINE_ENDS.wrapping_shr(u32::from(byte)) & 1;
                at = run_end(text, at + 1, IN_BLANKS << newline);
                continue;
            }
            Start::Name => {
                at = run_end(text, at + 1, IN_NAME);
                // Few names have the first letter and the length of a word.
                let (found, after) = if WORD_LENGTHS[(byte & 31) as usize].wrapping_shr(at - first) & !(level / WORD_IS_NAME) as u32 & 1 != 0 {
                    word_or_name(text, first, at, level, newline)?
                } else {
                    (NAME, after_name(level))
                };
                kind = found;
                level = level & ALL_BUT_NEXT | after;
            }
            Start::Number => {
                at = number_end(text, first, byte)?;
                kind = NUMBER;
                level &= ALL_BUT_NEXT;
            }
            Start::String => {
                at = string_end(text, first, byte)?;
                kind = STRING;
                level &= ALL_BUT_NEXT;
            }
            Start::Slash => match byte_after(text, at) {
                Some(b'/') => {
                    at = run_end(text, at + 2, IN_LINE_COMMENT);
                    match byte_at(text, at) {
                        None | Some(b'\n' | b'\r') => continue,
                        Some(_) => return Err((STRAY, at)),
                    }
                }
                Some(b'*') => {
                    let (end, lined) = block_comment_end(text, first)?;
                    at = end;
                    newline |= lined;
                    continue;
                }
                _ if level & PATTERN != 0 => {
                    at = pattern_end(text, first)?;
                    kind = REGULAR_EXPRESSION;
                    level &= ALL_BUT_NEXT;
                }
                next => {
                    level = level & ALL_BUT_NEXT | OPERATOR;
                    at += if next == Some(b'=') { 2 } else { 1 };
                    kind = SIGN;
                }
            },
            Start::Semicolon => {
                // Open `?`s are forgotten.
                level = level & GROUP | level >> 16 & OBJECTS | PATTERN;
                at += 1;
                kind = SIGN;
            }
            Start::Comma => {
                level = level & ALL_BUT_NEXT | level >> 16 & WORD_IS_NAME | OPERATOR;
                at += 1;
                kind = SIGN;
            }
            Start::Colon => {
                at += 1;
                if level >= QUESTION {
                    level = (level - QUESTION) & ALL_BUT_NEXT | OPERATOR;
                    kind = ANSWER;
                } else {
                    level = level & ALL_BUT_NEXT | level >> 16 & OBJECTS | PATTERN;
                    kind = SIGN;
                }
            }
            Start::Question => {
                level = (level + QUESTION) & ALL_BUT_NEXT | OPERATOR;
                at += 1;
                kind = SIGN;
            }
            Start::Dot => {
                if byte_after(text, at).is_some_and(|next| next.is_ascii_digit()) {
                    at = longer_number_end(text, first, first)?;
                    kind = NUMBER;
                    level &= ALL_BUT_NEXT;
                } else {
                    level = level & ALL_BUT_NEXT | PATTERN | WORD_IS_NAME;
                    at += 1;
                    kind = SIGN;
                }
            }
            Start::Operator => {
                let next = byte_after(text, at).unwrap_or(0);
                let (found, after) = if !LENGTHENS[next as usize] {
                    at += 1;
                    (SIGN, OPERATOR)
                } else {
                    at += operator_length(text, at);
                    let doubled = at - first == 2 && next == byte && (byte == b'+' || byte == b'-');
                    if doubled { increment(level, newline) } else { (SIGN, OPERATOR) }
                };
                kind = found;
                level = level & ALL_BUT_NEXT | after;
            }
            Start::Closer => {
                if (level >> 24) as u8 != byte {
                    return Err((WRONG_CLOSER, at));
                }
                depth -= 1;
                let Open { record, after } = groups[depth % groups.len()];
                at += 1;
                level = after;
                if let Some(group) = records.get_mut(record as usize) {
                    group[2] = at;
                    group[3] = count - record;
                }
                newline = 0;
                continue;
            }
            Start::Opener => {
                if depth == DEEPEST {
                    return Err((DEEP, at));
                }
                let (found, inside, after) = match byte {
                    b'(' => (PARENTHESES, LEVEL_IN_PARENTHESES, after_parentheses(level)),
                    b'[' => (BRACKETS, LEVEL_IN_BRACKETS, 0),
                    _ if opens_object(level, newline) == 1 => (OBJECT, LEVEL_IN_OBJECT, 0),
                    _ => (BLOCK, LEVEL_IN_BLOCK, after_block(level)),
                };
                // The level after the group is known here. What its record lacks is written at its closer.
                groups[depth % groups.len()] = Open { record: count, after: level & ALL_BUT_NEXT | after };
                depth += 1;
                at += 1;
                kind = found;
                level = inside;
            }
            Start::Nothing => return Err((STRAY, at)),
        }
        let Some(record) = records.get_mut(count as usize) else {
            return Err((FULL, first));
        };
        *record = [kind, first, at, 1, newline];
        count += 1;
        newline = 0;
    }
    if depth == 0 {
        return Ok(count);
    }
    let innermost = groups[(depth - 1) % groups.len()].record;
    Err((UNCLOSED, records[innermost as usize][1]))
}
