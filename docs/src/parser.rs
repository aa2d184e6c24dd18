//! The yardstick of parsing: the library's `parse` by hand, in safe Rust, over the yardstick's reading: the same records, refusals and cells.
//! A recursive descent with one token looked at, and operators by their precedence; no allocation. It takes more stack than the library does.

use crate::yardstick;

const MOST_RECORDS: usize = 16_385;
const NO_PROGRAM: u32 = 13;
const FULL: u32 = 14;

type Tree = [u32; 5];
type Record = [u32; 3];

/// Nothing, or the place of the first element with which those so far begin no program.
type Parsed<T = ()> = Result<T, u32>;

/// Parses a text: the number of its syntax records, which the second table then starts with; or, with every cell of both tables 0, a number and a place, as the
/// library's calls answer.
pub fn parse(text: &[u8], trees: &mut [u32], syntax: &mut [u32]) -> u64 {
    let answer = yardstick::read(text, trees);
    if answer >> 32 != 0 {
        syntax.fill(0);
        return answer;
    }
    let all = &trees.as_chunks().0[..answer as usize];
    let records = syntax.as_chunks_mut().0;
    let room = records.len().min(MOST_RECORDS);
    let mut parser = Parser { text, all, level: all, close: text.len() as u32, at: 0, class: END, syntax: &mut records[..room], count: 0 };
    let refusal = match parser.program() {
        Ok(()) if parser.count as usize <= room => return u64::from(parser.count),
        Ok(()) => (FULL, text.len() as u32),
        Err(place) => (NO_PROGRAM, place),
    };
    trees.fill(0);
    syntax.fill(0);
    u64::from(refusal.0) << 32 | u64::from(refusal.1)
}

// Classes of tokens: those that make a part of their own kind have its number, others have one from 100 up.
const END: u8 = 0;
const NAME: u8 = 1;
const NUMBER: u8 = 2;
const STRING: u8 = 3;
const PATTERN: u8 = 4;
const DIVIDE: u8 = 10;
const PLUS: u8 = 11;
const ASSIGN: u8 = 12;
const THIS: u8 = 23;
const NULL: u8 = 24;
const TRUE: u8 = 25;
const FALSE: u8 = 26;
const NEW: u8 = 28;
const DELETE: u8 = 31;
const VOID: u8 = 32;
const TYPEOF: u8 = 33;
const INCREMENT: u8 = 34;
const DECREMENT: u8 = 35;
const COMPLEMENT: u8 = 38;
const NEGATION: u8 = 39;
const MULTIPLY: u8 = 40;
const REMAINDER: u8 = 41;
const MINUS: u8 = 42;
const LEFT_SHIFT: u8 = 43;
const RIGHT_SHIFT: u8 = 44;
const UNSIGNED_SHIFT: u8 = 45;
const LESS: u8 = 46;
const GREATER: u8 = 47;
const AT_MOST: u8 = 48;
const AT_LEAST: u8 = 49;
const INSTANCEOF: u8 = 50;
const IN: u8 = 51;
const EQUAL: u8 = 52;
const UNEQUAL: u8 = 53;
const IDENTICAL: u8 = 54;
const UNIDENTICAL: u8 = 55;
const BIT_AND: u8 = 56;
const BIT_XOR: u8 = 57;
const BIT_OR: u8 = 58;
const LOGICAL_AND: u8 = 59;
const LOGICAL_OR: u8 = 60;
const QUESTION: u8 = 61;
const MULTIPLY_ASSIGN: u8 = 62;
const DIVIDE_ASSIGN: u8 = 63;
const REMAINDER_ASSIGN: u8 = 64;
const PLUS_ASSIGN: u8 = 65;
const MINUS_ASSIGN: u8 = 66;
const LEFT_SHIFT_ASSIGN: u8 = 67;
const RIGHT_SHIFT_ASSIGN: u8 = 68;
const UNSIGNED_SHIFT_ASSIGN: u8 = 69;
const AND_ASSIGN: u8 = 70;
const XOR_ASSIGN: u8 = 71;
const OR_ASSIGN: u8 = 72;
const COMMA: u8 = 73;
const VAR: u8 = 74;
const ELSE: u8 = 77;
const DO: u8 = 78;
const WHILE: u8 = 79;
const FOR: u8 = 80;
const CONTINUE: u8 = 82;
const BREAK: u8 = 84;
const WITH: u8 = 86;
const SWITCH: u8 = 87;
const CASE: u8 = 88;
const DEFAULT: u8 = 89;
const THROW: u8 = 90;
const TRY: u8 = 91;
const CATCH: u8 = 92;
const FINALLY: u8 = 93;
const DEBUGGER: u8 = 94;
const SEMICOLON: u8 = 100;
const DOT: u8 = 101;
const COLON: u8 = 102;
const PARENTHESES: u8 = 103;
const BRACE: u8 = 104;
const BRACKETS: u8 = 105;
const RETURN: u8 = 106;
const FUNCTION: u8 = 107;
const IF: u8 = 108;
/// Told by more than a kind.
const SPELLED: u8 = 120;
const WORD: u8 = 121;

// Kinds of parts that no class has the number of.
const OBJECT: u8 = 5;
const PARENTHESISED: u8 = 6;
const FUNCTION_EXPRESSION: u8 = 7;
const MEMBER: u8 = 8;
const CALL: u8 = 9;
const EXPRESSION: u8 = 13;
const BARE_RETURN: u8 = 14;
const FULL_RETURN: u8 = 15;
const BLOCK: u8 = 16;
const LABEL: u8 = 17;
const CONDITION: u8 = 18;
const DECLARATION: u8 = 19;
const PROGRAM: u8 = 20;
const ARRAY: u8 = 21;
const INDEX: u8 = 22;
const CONSTRUCT: u8 = 27;
/// `++` and `--` after their operand have the numbers of those before it, less this.
const AFTER: u8 = 5;
/// `+` and `-` before their operand.
const POSITIVE: u8 = 36;
const NEGATIVE: u8 = 37;
const VARIABLE: u8 = 75;
const EMPTY: u8 = 76;
const FOR_IN: u8 = 81;

static BY_KIND: [u8; 16] =
    [END, NAME, WORD, NUMBER, STRING, PATTERN, SPELLED, PARENTHESES, BRACE, BRACE, BRACKETS, SPELLED, SPELLED, COLON, END, END];

/// Signs of one byte.
static BY_BYTE: [u8; 128] = {
    let mut classes = [END; 128];
    let signs = b"!%&*+,-./:;<=>?^|~";
    let of = [
        NEGATION, REMAINDER, BIT_AND, MULTIPLY, PLUS, COMMA, MINUS, DOT, DIVIDE, COLON, SEMICOLON, LESS, ASSIGN, GREATER, QUESTION, BIT_XOR, BIT_OR, COMPLEMENT,
    ];
    let mut index = 0;
    while index < of.len() {
        classes[signs[index] as usize] = of[index];
        index += 1;
    }
    classes
};

/// How tight operators between two operands bind; in the second half as where `in` is none.
static PRECEDENCES: [u8; 256] = {
    let mut all = [0; 256];
    let rows: [(u8, &[u8]); 10] = [
        (1, &[LOGICAL_OR]),
        (2, &[LOGICAL_AND]),
        (3, &[BIT_OR]),
        (4, &[BIT_XOR]),
        (5, &[BIT_AND]),
        (6, &[EQUAL, UNEQUAL, IDENTICAL, UNIDENTICAL]),
        (7, &[LESS, GREATER, AT_MOST, AT_LEAST, INSTANCEOF, IN]),
        (8, &[LEFT_SHIFT, RIGHT_SHIFT, UNSIGNED_SHIFT]),
        (9, &[PLUS, MINUS]),
        (10, &[MULTIPLY, DIVIDE, REMAINDER]),
    ];
    let mut row = 0;
    while row < rows.len() {
        let mut index = 0;
        while index < rows[row].1.len() {
            let class = rows[row].1[index] as usize;
            all[class] = rows[row].0;
            all[128 + class] = rows[row].0;
            index += 1;
        }
        row += 1;
    }
    all[128 + IN as usize] = 0;
    all
};

/// Longer signs, by their length and first and last bytes.
fn longer_sign(sign: &[u8]) -> u8 {
    let (&[first, ..], &[.., last]) = (sign, sign) else { return END };
    match (sign.len(), last, first) {
        (2, b'=', b'=') => EQUAL,
        (2, b'=', b'!') => UNEQUAL,
        (2, b'=', b'<') => AT_MOST,
        (2, b'=', b'>') => AT_LEAST,
        (2, b'=', b'+') => PLUS_ASSIGN,
        (2, b'=', b'-') => MINUS_ASSIGN,
        (2, b'=', b'*') => MULTIPLY_ASSIGN,
        (2, b'=', b'/') => DIVIDE_ASSIGN,
        (2, b'=', b'%') => REMAINDER_ASSIGN,
        (2, b'=', b'&') => AND_ASSIGN,
        (2, b'=', b'|') => OR_ASSIGN,
        (2, b'=', _) => XOR_ASSIGN,
        (2, _, b'&') => LOGICAL_AND,
        (2, _, b'|') => LOGICAL_OR,
        (2, _, b'+') => INCREMENT,
        (2, _, b'-') => DECREMENT,
        (2, _, b'<') => LEFT_SHIFT,
        (2, _, _) => RIGHT_SHIFT,
        (3, b'=', b'=') => IDENTICAL,
        (3, b'=', b'!') => UNIDENTICAL,
        (3, b'=', b'<') => LEFT_SHIFT_ASSIGN,
        (3, b'=', _) => RIGHT_SHIFT_ASSIGN,
        (3, _, _) => UNSIGNED_SHIFT,
        _ => UNSIGNED_SHIFT_ASSIGN,
    }
}

/// Words that are taken, by their length and first and last letters.
fn word(word: &[u8]) -> u8 {
    let (&[first, ..], &[.., last]) = (word, word) else { return END };
    match (word.len(), first) {
        (2, _) => match last {
            b'f' => IF,
            b'n' => IN,
            _ => DO,
        },
        (3, b'v') => VAR,
        (3, b'f') => FOR,
        (3, b'n') => NEW,
        (3, _) => TRY,
        (4, b't') if last == b's' => THIS,
        (4, b't') => TRUE,
        (4, b'n') => NULL,
        (4, b'e') => ELSE,
        (4, b'c') => CASE,
        (4, b'v') => VOID,
        (4, _) => WITH,
        (5, b'b') => BREAK,
        (5, b'c') => CATCH,
        (5, b'f') => FALSE,
        (5, b't') => THROW,
        (5, _) => WHILE,
        (6, b'r') => RETURN,
        (6, b't') => TYPEOF,
        (6, b'd') => DELETE,
        (6, _) => SWITCH,
        (7, b'd') => DEFAULT,
        (7, _) => FINALLY,
        (8, b'f') => FUNCTION,
        (8, b'c') => CONTINUE,
        (8, _) => DEBUGGER,
        _ => INSTANCEOF,
    }
}

#[inline(always)]
fn class_of(text: &[u8], tree: &Tree) -> u8 {
    let class = BY_KIND[tree[0] as usize & 15];
    if class < SPELLED {
        return class;
    }
    let (first, end) = (tree[1] as usize, tree[2] as usize);
    if class == WORD {
        return word(text.get(first..end).unwrap_or(&[]));
    }
    if end == first + 1 {
        return text.get(first).map_or(END, |&byte| BY_BYTE[byte as usize & 127]);
    }
    longer_sign(text.get(first..end).unwrap_or(&[]))
}

fn is_assignment(class: u8) -> bool {
    class == ASSIGN || matches!(class, MULTIPLY_ASSIGN..=OR_ASSIGN)
}

struct Parser<'a> {
    text: &'a [u8],
    all: &'a [Tree],
    /// The trees up to the end of the innermost group, and the place of its closer.
    level: &'a [Tree],
    close: u32,
    /// The token looked at, and its class.
    at: u32,
    class: u8,
    syntax: &'a mut [Record],
    count: u32,
}

impl<'a> Parser<'a> {
    #[inline(always)]
    fn look(&mut self) {
        self.class = self.level.get(self.at as usize).map_or(END, |tree| class_of(self.text, tree));
    }

    #[inline(always)]
    fn advance(&mut self) {
        self.at += 1;
        self.look();
    }

    #[cold]
    fn bad<T>(&self) -> Parsed<T> {
        Err(self.level.get(self.at as usize).map_or(self.close, |tree| tree[1]))
    }

    #[inline(always)]
    fn expect(&self, class: u8) -> Parsed {
        if self.class == class { Ok(()) } else { self.bad() }
    }

    #[inline(always)]
    fn take(&mut self, class: u8) -> Parsed<u32> {
        self.expect(class)?;
        let mark = self.at;
        self.advance();
        Ok(mark)
    }

    fn behind_line_end(&self) -> bool {
        self.level.get(self.at as usize).is_some_and(|tree| tree[4] == 1)
    }

    #[inline(always)]
    fn put(&mut self, kind: u8, mark: u32, start: u32) {
        if let Some(record) = self.syntax.get_mut(self.count as usize) {
            *record = [u32::from(kind), mark, self.count - start + 1];
        }
        self.count += 1;
    }

    /// The inside of the group that is looked at, which it passes; its mark.
    #[inline(always)]
    fn group(&mut self, inside: impl FnOnce(&mut Self) -> Parsed) -> Parsed<u32> {
        let (level, close, mark) = (self.level, self.close, self.at);
        let Some(tree) = level.get(mark as usize) else { return self.bad() };
        self.level = self.all.get(..mark as usize + tree[3] as usize).unwrap_or(level);
        self.close = tree[2] - 1;
        self.advance();
        inside(self)?;
        self.expect(END)?;
        self.level = level;
        self.close = close;
        self.at = mark + tree[3];
        self.look();
        Ok(mark)
    }

    fn program(&mut self) -> Parsed {
        self.look();
        self.body()?;
        self.put(PROGRAM, self.all.len() as u32, 0);
        Ok(())
    }

    fn body(&mut self) -> Parsed {
        while self.class != END {
            if self.class == FUNCTION {
                let start = self.count;
                let mark = self.take(FUNCTION)?;
                self.take(NAME)?;
                self.function()?;
                self.put(DECLARATION, mark, start);
            } else {
                self.statement()?;
            }
        }
        Ok(())
    }

    fn statements(&mut self) -> Parsed {
        while self.class != END {
            self.statement()?;
        }
        Ok(())
    }

    fn function(&mut self) -> Parsed {
        self.expect(PARENTHESES)?;
        self.group(Self::parameters)?;
        self.expect(BRACE)?;
        self.group(Self::body)?;
        Ok(())
    }

    fn parameters(&mut self) -> Parsed {
        if self.class == END {
            return Ok(());
        }
        loop {
            self.take(NAME)?;
            if self.class != COMMA {
                return Ok(());
            }
            self.advance();
        }
    }

    fn block(&mut self) -> Parsed {
        self.expect(BRACE)?;
        let start = self.count;
        let mark = self.group(Self::statements)?;
        self.put(BLOCK, mark, start);
        Ok(())
    }

    fn in_parentheses(&mut self) -> Parsed<u32> {
        self.expect(PARENTHESES)?;
        self.group(|parser| parser.expression(false).map(|_| ()))
    }

    fn is_label(&self) -> bool {
        self.level.get(self.at as usize + 1).is_some_and(|tree| (tree[0] == 6 || tree[0] == 13) && class_of(self.text, tree) == COLON)
    }

    fn statement(&mut self) -> Parsed {
        let (class, mark, start) = (self.class, self.at, self.count);
        match class {
            NAME if self.is_label() => {
                self.advance();
                self.advance();
                self.statement()?;
                self.put(LABEL, mark, start);
            }
            BRACE => self.block()?,
            SEMICOLON => {
                self.put(EMPTY, mark, start);
                self.advance();
            }
            FUNCTION => return self.bad(),
            VAR | IF | RETURN | DO..=DEBUGGER => return self.word_statement(class, mark, start),
            _ => {
                self.expression(false)?;
                let semicolon = self.take(SEMICOLON)?;
                self.put(EXPRESSION, semicolon, start);
            }
        }
        Ok(())
    }

    fn word_statement(&mut self, class: u8, mark: u32, start: u32) -> Parsed {
        self.advance();
        let mut kind = class;
        match class {
            VAR => {
                self.variable(false)?;
                self.more_variables(false)?;
                self.take(SEMICOLON)?;
            }
            IF => {
                self.in_parentheses()?;
                self.statement()?;
                self.put(CONDITION, mark, start);
                if self.class == ELSE {
                    let other = self.take(ELSE)?;
                    self.statement()?;
                    self.put(ELSE, other, start);
                }
                return Ok(());
            }
            RETURN => {
                kind = BARE_RETURN;
                if self.class != SEMICOLON {
                    kind = FULL_RETURN;
                    self.value()?;
                }
                self.take(SEMICOLON)?;
            }
            THROW => {
                self.value()?;
                self.take(SEMICOLON)?;
            }
            CONTINUE | BREAK => {
                if self.class == NAME && !self.behind_line_end() {
                    self.advance();
                    kind += 1;
                }
                self.take(SEMICOLON)?;
            }
            DO => {
                self.statement()?;
                self.take(WHILE)?;
                self.in_parentheses()?;
                self.take(SEMICOLON)?;
            }
            WHILE | WITH => {
                self.in_parentheses()?;
                self.statement()?;
            }
            FOR => {
                self.expect(PARENTHESES)?;
                self.group(|parser| {
                    kind = parser.head()?;
                    Ok(())
                })?;
                self.statement()?;
            }
            SWITCH => {
                self.in_parentheses()?;
                self.expect(BRACE)?;
                self.group(Self::clauses)?;
            }
            TRY => {
                self.block()?;
                self.handlers()?;
            }
            DEBUGGER => {
                self.take(SEMICOLON)?;
            }
            _ => {
                // `case`, `default`, `catch` and `finally` start no statement.
                self.at = mark;
                return self.bad();
            }
        }
        self.put(kind, mark, start);
        Ok(())
    }

    /// The value of a `return` or `throw`, on its line.
    fn value(&mut self) -> Parsed {
        if self.behind_line_end() {
            return self.bad();
        }
        self.expression(false)?;
        Ok(())
    }

    fn variable(&mut self, no_in: bool) -> Parsed {
        let start = self.count;
        let mark = self.take(NAME)?;
        if self.class == ASSIGN {
            self.advance();
            self.assign(no_in)?;
        }
        self.put(VARIABLE, mark, start);
        Ok(())
    }

    fn more_variables(&mut self, no_in: bool) -> Parsed {
        while self.class == COMMA {
            self.advance();
            self.variable(no_in)?;
        }
        Ok(())
    }

    /// The head of a `for`: its kind.
    fn head(&mut self) -> Parsed<u8> {
        let mut lone = false;
        if self.class == VAR {
            let start = self.count;
            let mark = self.take(VAR)?;
            self.variable(true)?;
            lone = self.class == IN;
            if !lone {
                self.more_variables(true)?;
                self.expect(SEMICOLON)?;
            }
            self.put(VAR, mark, start);
        } else if self.class != SEMICOLON {
            lone = self.expression(true)?;
        }
        if lone && self.class == IN {
            self.advance();
            self.expression(false)?;
            return Ok(FOR_IN);
        }
        self.take(SEMICOLON)?;
        if self.class != SEMICOLON {
            self.expression(false)?;
        }
        self.take(SEMICOLON)?;
        if self.class != END {
            self.expression(false)?;
        }
        Ok(FOR)
    }

    fn clauses(&mut self) -> Parsed {
        let mut seen = false;
        while self.class != END {
            let (class, mark, start) = (self.class, self.at, self.count);
            if class == CASE {
                self.advance();
                self.expression(false)?;
            } else if class == DEFAULT && !seen {
                seen = true;
                self.advance();
            } else {
                return self.bad();
            }
            self.take(COLON)?;
            while !matches!(self.class, CASE | DEFAULT | END) {
                self.statement()?;
            }
            self.put(class, mark, start);
        }
        Ok(())
    }

    fn handlers(&mut self) -> Parsed {
        let caught = self.class == CATCH;
        if caught {
            let (mark, start) = (self.at, self.count);
            self.advance();
            self.expect(PARENTHESES)?;
            self.group(|parser| parser.take(NAME).map(|_| ()))?;
            self.block()?;
            self.put(CATCH, mark, start);
        }
        if self.class == FINALLY {
            let (mark, start) = (self.at, self.count);
            self.advance();
            self.block()?;
            self.put(FINALLY, mark, start);
        } else if !caught {
            return self.bad();
        }
        Ok(())
    }

    /// An expression with commas; whether it is no more than a LeftHandSideExpression.
    #[inline(always)]
    fn expression(&mut self, no_in: bool) -> Parsed<bool> {
        let start = self.count;
        let mut lone = self.assign(no_in)?;
        while self.class == COMMA {
            let mark = self.at;
            self.advance();
            self.assign(no_in)?;
            self.put(COMMA, mark, start);
            lone = false;
        }
        Ok(lone)
    }

    fn assign(&mut self, no_in: bool) -> Parsed<bool> {
        let start = self.count;
        let mut lone = self.unary()?;
        if lone && is_assignment(self.class) {
            let (class, mark) = (self.class, self.at);
            self.advance();
            self.assign(no_in)?;
            self.put(class, mark, start);
            return Ok(false);
        }
        if self.precedence(no_in) > 0 {
            self.binary(start, 1, no_in)?;
            lone = false;
        }
        if self.class == QUESTION {
            let mark = self.at;
            self.advance();
            self.assign(false)?;
            self.take(COLON)?;
            self.assign(no_in)?;
            self.put(QUESTION, mark, start);
            lone = false;
        }
        Ok(lone)
    }

    #[inline(always)]
    fn precedence(&self, no_in: bool) -> u8 {
        PRECEDENCES[usize::from(no_in) * 128 + (self.class as usize & 127)]
    }

    /// Operators that bind at least so tight, behind what starts with a record.
    fn binary(&mut self, start: u32, least: u8, no_in: bool) -> Parsed {
        loop {
            let precedence = self.precedence(no_in);
            if precedence < least {
                return Ok(());
            }
            let (class, mark) = (self.class, self.at);
            self.advance();
            let right = self.count;
            self.unary()?;
            if self.precedence(no_in) > precedence {
                self.binary(right, precedence + 1, no_in)?;
            }
            self.put(class, mark, start);
        }
    }

    /// Whether it may be assigned to.
    #[inline(always)]
    fn unary(&mut self) -> Parsed<bool> {
        if matches!(self.class, DELETE..=DECREMENT | COMPLEMENT | NEGATION | PLUS | MINUS) {
            return self.prefixed();
        }
        let start = self.count;
        self.target(start)?;
        if matches!(self.class, INCREMENT | DECREMENT) && !self.behind_line_end() {
            self.put(self.class - AFTER, self.at, start);
            self.advance();
            return Ok(false);
        }
        Ok(true)
    }

    fn prefixed(&mut self) -> Parsed<bool> {
        let (mark, start) = (self.at, self.count);
        let kind = match self.class {
            PLUS => POSITIVE,
            MINUS => NEGATIVE,
            class => class,
        };
        self.advance();
        self.unary_again()?;
        self.put(kind, mark, start);
        Ok(false)
    }

    fn unary_again(&mut self) -> Parsed<bool> {
        self.unary()
    }

    #[inline(always)]
    fn target(&mut self, start: u32) -> Parsed {
        if self.class == NEW {
            self.construct()?;
        } else {
            self.operand()?;
        }
        loop {
            match self.class {
                DOT => self.member(start)?,
                PARENTHESES => {
                    let mark = self.group(Self::arguments)?;
                    self.put(CALL, mark, start);
                }
                BRACKETS => self.index(start)?,
                _ => return Ok(()),
            }
        }
    }

    #[inline(always)]
    fn member(&mut self, start: u32) -> Parsed {
        self.advance();
        let mark = self.take(NAME)?;
        self.put(MEMBER, mark, start);
        Ok(())
    }

    fn index(&mut self, start: u32) -> Parsed {
        let mark = self.group(|parser| parser.expression(false).map(|_| ()))?;
        self.put(INDEX, mark, start);
        Ok(())
    }

    /// `new`, with arguments if some come.
    fn construct(&mut self) -> Parsed {
        let start = self.count;
        let mark = self.take(NEW)?;
        if self.class == NEW {
            self.construct()?;
        } else {
            self.operand()?;
        }
        loop {
            match self.class {
                DOT => self.member(start)?,
                BRACKETS => self.index(start)?,
                PARENTHESES => {
                    self.group(Self::arguments)?;
                    self.put(CONSTRUCT, mark, start);
                    return Ok(());
                }
                _ => {
                    self.put(NEW, mark, start);
                    return Ok(());
                }
            }
        }
    }

    fn arguments(&mut self) -> Parsed {
        if self.class == END {
            return Ok(());
        }
        loop {
            self.assign(false)?;
            if self.class != COMMA {
                return Ok(());
            }
            self.advance();
        }
    }

    #[inline(always)]
    fn operand(&mut self) -> Parsed {
        if matches!(self.class, NAME..=PATTERN | THIS..=FALSE) {
            self.put(self.class, self.at, self.count);
            self.advance();
            return Ok(());
        }
        self.compound()
    }

    fn compound(&mut self) -> Parsed {
        let start = self.count;
        match self.class {
            PARENTHESES => {
                let mark = self.in_parentheses()?;
                self.put(PARENTHESISED, mark, start);
            }
            BRACE => {
                let mark = self.group(Self::properties)?;
                self.put(OBJECT, mark, start);
            }
            BRACKETS => {
                let mark = self.group(Self::elements)?;
                self.put(ARRAY, mark, start);
            }
            FUNCTION => {
                let mark = self.take(FUNCTION)?;
                if self.class == NAME {
                    self.advance();
                }
                self.function()?;
                self.put(FUNCTION_EXPRESSION, mark, start);
            }
            _ => return self.bad(),
        }
        Ok(())
    }

    fn properties(&mut self) -> Parsed {
        while self.class != END {
            self.take(NAME)?;
            self.take(COLON)?;
            self.assign(false)?;
            if self.class != COMMA {
                return Ok(());
            }
            self.advance();
        }
        Ok(())
    }

    fn elements(&mut self) -> Parsed {
        loop {
            while self.class == COMMA {
                self.advance();
            }
            if self.class == END {
                return Ok(());
            }
            self.assign(false)?;
            if self.class != COMMA {
                return Ok(());
            }
            self.advance();
        }
    }
}
