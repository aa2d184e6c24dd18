//! Texts to compare over: a fixed sequence of random numbers, programs made from the grammar, damage, and texts near each limit.

use crate::elements::{element, gap, SIGNS, WORDS};
use crate::reading::{DEEPEST, LONGEST_TEXT, MOST_TREES};

/// SplitMix64: the same numbers on every run.
pub struct Random(pub u64);

impl Random {
    pub fn next(&mut self) -> u64 {
        self.0 = self.0.wrapping_add(0x9e37_79b9_7f4a_7c15);
        let mut x = self.0;
        x = (x ^ (x >> 30)).wrapping_mul(0xbf58_476d_1ce4_e5b9);
        x = (x ^ (x >> 27)).wrapping_mul(0x94d0_49bb_1331_11eb);
        x ^ (x >> 31)
    }

    pub fn below(&mut self, bound: usize) -> usize {
        (self.next() % bound as u64) as usize
    }

    pub fn one_in(&mut self, bound: usize) -> bool {
        self.below(bound) == 0
    }

    pub fn of(&mut self, choices: &[&'static str]) -> &'static str {
        choices[self.below(choices.len())]
    }
}

/// The pieces whose every short sequence is compared.
pub const PIECES: &[&str] = &[
    "a", "1", "'s'", "/", "/a/", "+", "=", ":", ";", ".", ",", "(", ")", "{", "}", "[", "]", "return", "function", "if", "while", "\n", "/*c*/", "//c\n",
];

/// The pieces of operators, likewise.
pub const OPERATORS: &[&str] = &["a", ";", "/", "/a/", "(", ")", "{", "}", ":", ",", "?", "++", "-", "!", "*", "&&", "=", "-=", "new", "delete", "in", "this", "if", "\n"];

/// The pieces of statements, likewise.
pub const STATEMENTS: &[&str] = &[
    "a", ";", "/", "/a/", "(", ")", "(a)", "{", "}", "a:", ",", "=", "var ", "else ", "do ", "while", "with", "for", "if(a)", "throw ", "break ", "case ", "debugger", "\n",
];

/// The pieces of statements that hold others, of which longer sequences are compared.
pub const NESTS: &[&str] = &["if(a)", "while(a)", "do ", "else ", "a:", "{", "}", ";"];

/// What stands around pieces of which every sequence of at most so many is compared: the heads of `for`, clauses, and `try`s.
pub const WITHIN: &[(&str, &[&str], usize, &str)] = &[
    ("for(", &["a", ";", " in ", "var ", "=", ",", "?", ":", "/", "{}"], 5, ");"),
    ("for(", &["a", ".a", "(a in a)", " in ", "new ", "-", "++", "=a", ";", "var a", ","], 4, ";)/a/;"),
    ("switch(a){", &["case ", "default", ":", "a", ";", "{}", "/a/", "?"], 5, "}"),
    ("switch(a){case a", &[":", "if(a)", "else ", ";", "case{}", "default:", "a:", "switch(a){", "}"], 5, "}"),
    ("", &["try", "{}", "catch", "(a)", "finally", ";", "/a/", "if(a)", "else "], 5, ""),
    ("if(a)", &["for(;;)", "for(a in a)", "try{}catch(a){}", "finally{}", "else ", ";", "do ", "while(a)", "a:"], 5, ";"),
];

/// Bytes of which every text of at most so many is compared.
pub const ALPHABETS: &[(&str, usize)] = &[("a+-/?:{}();", 5), ("a/{}();", 6), ("a!=/;,", 6), ("0.5ex", 6), ("a+/;\n", 6), ("a?:/{};", 6), ("<>=a&|", 5), ("1.e+-a", 6)];

/// Pieces for longer random sequences: the same, and whole phrases.
const PHRASES: &[&str] = &[
    "a", "b", "1", "0", "'s'", "\"/\"", "/", "/", "/a/", "/[/]/g", "+", "=", ":", ";", ";", ".", "(", ")", "{", "}", "return", "function", "if", "\n",
    "\r", "\t", "/*c*/", "/*\n*/", "//c\n", "if(a)", "function f(x){}", "function f(x){", "{}", "(a)", "{a:1}", "{a:", "a:", "x=", "a;", ".b", "return;",
    "return a;", "while", "++", "/=", ".5", "1.", "'", "#", "\u{7f}", ".if", ".return", ".function", ".while", "a.if(b)", ".\nclass", "./*c*/if(b)", ".//c\nin",
    ",", ",", "[", "]", "[a]", "[,]", "(a,b)", "()", "function(){}", "function(a,b){", "{a:1,b:2,}", "{if:a,", ",in:b", ",{}", "[a,,b,]", ",/a/",
    "++", "--", "++a", "a++", "\n++", "!", "~", "-", "*", "%", "<", ">>>", "<=", "===", "&&", "||", "|", "^", "?", "?", ":", "? a :", "?{}", ":{}", "++{}", "+=", "/=", ">>>=", "this", "null",
    "true", "false", "new", "new a", "new a(b)", "delete", "void", "typeof", " in ", " instanceof ", "typeof{}", "in{}", "this{}", "0x1F", "1.5e-3", ".5", "5.", "1..a", "0x", "1e", "08", "3in",
    "var ", "var a,b=", "else ", "else{}", "else/a/", ";else ", "if(a);else;", "do ", "do;while(a);", "do{", "}while(a)", "while(a)", "while(a)/b/", "with(a)", "with(a){}", "for", "for(;;)", "for(;{}",
    "for(a in b)/c/", "for(", "for(var ", "for(var a=b in c)", "for(var a in", "for(a?b in c:", "for({}/a;", "(;", ";;", ";)", " in{}", ";{}", "switch(a){", "switch(a){}", "case ", "case a:", "case{}", "case\n{}",
    "case/a/:", "default:", "default:}", "try", "try{", "try{}", "}catch(a){", "catch(a){}", "catch(", "}finally{", "finally{}", "finally", "try{}catch(a){}", "throw ", "throw a;", "throw{}", "throw\n{}", "break;", "break a;", "break\n",
    "continue;", "continue a;", "debugger;", "class",
];

const NAMES: &[&str] = &["a", "b", "f", "$", "_x1", "ifx", "returns", "x", "nulls", "i"];
const NUMBERS: &[&str] = &["0", "1", "10", "907", "0.5", ".5", "5.", "1e3", "2.5E+10", ".25e-1", "0x1F", "0Xfe", "0.", "0e0", "3.e1"];
const VALUES: &[&str] = &["this", "null", "true", "false"];
const PREFIX_OPERATORS: &[&str] = &["delete", "void", "typeof", "++", "--", "+", "-", "~", "!"];
const BINARY_OPERATORS: &[&str] = &[
    "/", "/", "/", "+", "*", "%", "-", "<<", ">>", ">>>", "<", ">", "<=", ">=", "instanceof", "in", "==", "!=", "===", "!==", "&", "^", "|", "&&", "||",
];
const ASSIGNMENT_OPERATORS: &[&str] = &["=", "=", "*=", "/=", "/=", "%=", "+=", "-=", "<<=", ">>=", ">>>=", "&=", "^=", "|="];
const STRINGS: &[&str] = &["'s'", "\"q\\\"\"", "'\\''", "''", "'//'", "\"}\"", "'/*'", "\"\\\\\"", "'\t'"];
const PATTERNS: &[&str] = &["/a/", "/[/]/g", "/=/", "/\\//i", "/)/", "/{/", "/[\\]/]/", "/]/", "/'/", "/ /", "/[[]/0$"];
const GAPS: &[&str] = &["", "", "", "", "", " ", " ", "\n", "\t", "/*c*/", "/*\n*/", "//c\n", "\r\n", " // '\r", "\u{b}\u{c}"];
const GAPS_WITHOUT_LINE_END: &[&str] = &["", "", " ", "\t", "/*c*/", "/***/"];

/// Where an expression stands: at the start of a statement, which neither `{` nor `function` starts; in the head of a `for` before what ends its first part, where
/// `in` is no operator; or elsewhere.
#[derive(Clone, Copy, PartialEq)]
enum Place {
    Statement,
    Head,
    Other,
}

impl Place {
    /// That of what follows the first part.
    fn behind(self) -> Self {
        if self == Place::Head {
            Place::Head
        } else {
            Place::Other
        }
    }
}

/// A random program: its elements, with those told apart before which no line end may stand.
struct Maker<'a> {
    random: &'a mut Random,
    budget: isize,
    open: usize,
    elements: Vec<&'static str>,
    /// Indices of elements before which no line end may stand.
    same_line: Vec<usize>,
}

impl Maker<'_> {
    fn put(&mut self, elements: &[&'static str]) {
        self.budget -= elements.len() as isize;
        self.elements.extend_from_slice(elements);
    }

    fn small(&mut self) -> bool {
        self.budget <= 0 || self.open > 90
    }

    fn program(&mut self) {
        while self.budget > 0 {
            self.item(true);
        }
    }

    fn list(&mut self, declarations: bool) {
        while !self.small() && !self.random.one_in(3) {
            self.item(declarations);
        }
    }

    fn item(&mut self, declarations: bool) {
        if declarations && self.random.one_in(5) {
            self.function();
        } else {
            self.statement();
        }
    }

    fn statement(&mut self) {
        let choice = if self.small() { 9 } else { self.random.below(26) };
        match choice {
            0 => self.block(),
            1 | 2 => {
                self.put(&["if"]);
                self.parentheses();
                self.statement();
            }
            // An `else` may come to stand behind another `if` than its own, and the text is a program all the same.
            10 | 11 => {
                self.put(&["if"]);
                self.parentheses();
                self.statement();
                self.put(&["else"]);
                self.statement();
            }
            12 => {
                self.put(&["do"]);
                self.statement();
                self.put(&["while"]);
                self.parentheses();
                self.put(&[";"]);
            }
            13 | 14 => {
                let word = self.random.of(&["while", "with"]);
                self.put(&[word]);
                self.parentheses();
                self.statement();
            }
            15 => {
                let count = 1 + self.random.below(3);
                self.variables(count, Place::Other);
                self.put(&[";"]);
            }
            20..=22 => {
                self.put(&["for", "("]);
                self.open += 1;
                self.head();
                self.open -= 1;
                self.put(&[")"]);
                self.statement();
            }
            23 => self.switch(),
            24 => {
                self.put(&["try"]);
                self.block();
                let handlers = self.random.below(3);
                if handlers > 0 {
                    let name = self.random.of(NAMES);
                    self.put(&["catch", "(", name, ")"]);
                    self.block();
                }
                if handlers < 2 {
                    self.put(&["finally"]);
                    self.block();
                }
            }
            16 => self.put(&[";"]),
            3 => {
                let word = self.random.of(&["return", "break", "continue", "debugger"]);
                self.put(&[word, ";"]);
            }
            17 => {
                let (word, name) = (self.random.of(&["break", "continue"]), self.random.of(NAMES));
                self.same_line.push(self.elements.len() + 1);
                self.put(&[word, name, ";"]);
            }
            4 | 5 => {
                let word = self.random.of(&["return", "throw"]);
                self.put(&[word]);
                self.same_line.push(self.elements.len());
                self.expression(Place::Other);
                self.put(&[";"]);
            }
            6 => {
                let name = self.random.of(NAMES);
                self.put(&[name, ":"]);
                self.statement();
            }
            _ => {
                self.expression(Place::Statement);
                self.put(&[";"]);
            }
        }
    }

    fn block(&mut self) {
        self.put(&["{"]);
        self.open += 1;
        self.list(false);
        self.open -= 1;
        self.put(&["}"]);
    }

    fn variables(&mut self, count: usize, place: Place) {
        self.put(&["var"]);
        for index in 0..count {
            if index > 0 {
                self.put(&[","]);
            }
            let name = self.random.of(NAMES);
            self.put(&[name]);
            if self.random.one_in(2) {
                self.put(&["="]);
                self.assign(place);
            }
        }
    }

    fn head(&mut self) {
        match self.random.below(5) {
            0 => self.target(Place::Other),
            1 => self.variables(1, Place::Head),
            choice => {
                match choice {
                    2 => self.expression(Place::Head),
                    3 => {
                        let count = 1 + self.random.below(3);
                        self.variables(count, Place::Head);
                    }
                    _ => {}
                }
                for _ in 0..2 {
                    self.put(&[";"]);
                    if self.random.one_in(2) {
                        self.expression(Place::Other);
                    }
                }
                return;
            }
        }
        self.put(&["in"]);
        self.expression(Place::Other);
    }

    fn switch(&mut self) {
        self.put(&["switch"]);
        self.parentheses();
        self.put(&["{"]);
        self.open += 1;
        let count = self.random.below(4);
        let default = self.random.below(4);
        for index in 0..count {
            if index == default {
                self.put(&["default"]);
            } else {
                self.put(&["case"]);
                self.expression(Place::Other);
            }
            self.put(&[":"]);
            self.list(false);
        }
        self.open -= 1;
        self.put(&["}"]);
    }

    fn function(&mut self) {
        let name = self.random.of(NAMES);
        self.put(&["function", name]);
        self.parameters_and_body();
    }

    fn parameters_and_body(&mut self) {
        self.put(&["("]);
        for index in 0..self.random.below(4) {
            if index > 0 {
                self.put(&[","]);
            }
            let name = self.random.of(NAMES);
            self.put(&[name]);
        }
        self.put(&[")", "{"]);
        self.open += 1;
        self.list(true);
        self.open -= 1;
        self.put(&["}"]);
    }

    fn arguments(&mut self) {
        self.put(&["("]);
        self.open += 1;
        for index in 0..self.random.below(4) {
            if index > 0 {
                self.put(&[","]);
            }
            self.assign(Place::Other);
        }
        self.open -= 1;
        self.put(&[")"]);
    }

    fn index(&mut self) {
        self.put(&["["]);
        self.open += 1;
        self.expression(Place::Other);
        self.open -= 1;
        self.put(&["]"]);
    }

    fn array(&mut self) {
        self.put(&["["]);
        self.open += 1;
        for _ in 0..self.random.below(4) {
            if !self.random.one_in(4) {
                self.assign(Place::Other);
            }
            self.put(&[","]);
        }
        if self.random.one_in(2) {
            self.assign(Place::Other);
        }
        self.open -= 1;
        self.put(&["]"]);
    }

    fn object(&mut self) {
        self.put(&["{"]);
        self.open += 1;
        let count = self.random.below(4);
        for index in 0..count {
            let name = if self.random.one_in(3) { self.random.of(&WORDS) } else { self.random.of(NAMES) };
            self.put(&[name, ":"]);
            self.assign(Place::Other);
            if index + 1 < count || self.random.one_in(4) {
                self.put(&[","]);
            }
        }
        self.open -= 1;
        self.put(&["}"]);
    }

    fn parentheses(&mut self) {
        self.put(&["("]);
        self.open += 1;
        self.expression(Place::Other);
        self.open -= 1;
        self.put(&[")"]);
    }

    fn expression(&mut self, place: Place) {
        self.assign(place);
        while !self.small() && self.random.one_in(8) {
            self.put(&[","]);
            self.assign(place.behind());
        }
    }

    fn assign(&mut self, place: Place) {
        if !self.small() && self.random.one_in(4) {
            self.target(place);
            let sign = self.random.of(ASSIGNMENT_OPERATORS);
            self.put(&[sign]);
            return self.assign(place.behind());
        }
        self.binary(place);
        if !self.small() && self.random.one_in(6) {
            self.put(&["?"]);
            self.assign(Place::Other);
            self.put(&[":"]);
            self.assign(place.behind());
        }
    }

    fn binary(&mut self, place: Place) {
        self.unary(place);
        while !self.small() && self.random.one_in(3) {
            let sign = self.random.of(BINARY_OPERATORS);
            self.put(&[if sign == "in" && place == Place::Head { "instanceof" } else { sign }]);
            self.unary(place.behind());
        }
    }

    fn unary(&mut self, place: Place) {
        if !self.small() && self.random.one_in(6) {
            let sign = self.random.of(PREFIX_OPERATORS);
            self.put(&[sign]);
            return self.unary(place.behind());
        }
        self.target(place);
        if self.random.one_in(8) {
            self.same_line.push(self.elements.len());
            let sign = self.random.of(&["++", "--"]);
            self.put(&[sign]);
        }
    }

    fn target(&mut self, place: Place) {
        if !self.small() && self.random.one_in(10) {
            self.put(&["new"]);
            return self.target(place.behind());
        }
        self.chain(place);
    }

    fn chain(&mut self, place: Place) {
        let choice = if self.small() { 0 } else { self.random.below(13) };
        match choice {
            12 => {
                let value = self.random.of(VALUES);
                self.put(&[value]);
            }
            4 => {
                let number = self.random.of(NUMBERS);
                self.put(&[number]);
            }
            5 => {
                let string = self.random.of(STRINGS);
                self.put(&[string]);
            }
            6 => {
                let pattern = self.random.of(PATTERNS);
                self.put(&[pattern]);
            }
            7 => self.parentheses(),
            8 if place != Place::Statement => self.object(),
            9 if place != Place::Statement => self.function(),
            10 if place != Place::Statement => {
                self.put(&["function"]);
                self.parameters_and_body();
            }
            11 => self.array(),
            _ => {
                let name = self.random.of(NAMES);
                self.put(&[name]);
            }
        }
        while !self.small() && self.random.one_in(3) {
            match self.random.below(3) {
                0 => self.arguments(),
                1 => self.index(),
                _ => {
                    let name = if self.random.one_in(3) { self.random.of(&WORDS) } else { self.random.of(NAMES) };
                    self.put(&[".", name]);
                }
            }
        }
    }
}

/// Must a blank part an element from what follows, so that it is cut as it stands?
pub fn parted(before: &str, after: &str) -> bool {
    if before.is_empty() || after.is_empty() {
        return false;
    }
    let joined = [before, after].concat();
    let pattern = before.len() > 1 && before.starts_with('/') && before != "/=";
    let cut = gap(joined.as_bytes(), 0) == Ok((0, false)) && element(joined.as_bytes(), 0, false, pattern).is_ok_and(|found| found.end == before.len());
    !cut
}

/// A program of about so many elements, with gaps between them.
pub fn program(random: &mut Random, size: usize) -> Vec<u8> {
    let mut maker = Maker { random, budget: size as isize, open: 0, elements: Vec::new(), same_line: Vec::new() };
    maker.program();
    let Maker { elements, same_line, .. } = maker;
    spelled(random, &elements, &same_line)
}

/// Elements as a text, with gaps between them; no line end stands before those whose indices `same_line` has, in order.
pub fn spelled(random: &mut Random, elements: &[&str], same_line: &[usize]) -> Vec<u8> {
    let tight = random.one_in(3);
    let mut text = String::new();
    let mut before = "";
    for (index, element) in elements.iter().enumerate() {
        let gap = match same_line.binary_search(&index) {
            _ if tight => "",
            Ok(_) => random.of(GAPS_WITHOUT_LINE_END),
            Err(_) => random.of(GAPS),
        };
        let after = if gap.is_empty() { element } else { gap };
        if parted(before, after) {
            text.push(' ');
        }
        text.push_str(gap);
        text.push_str(element);
        before = element;
    }
    if !tight {
        let gap = random.of(GAPS);
        if parted(before, gap) {
            text.push(' ');
        }
        text.push_str(gap);
    }
    text.into_bytes()
}

/// Damages a text in one place.
pub fn damage(random: &mut Random, text: &mut Vec<u8>) {
    const BYTES: &[u8] = b"a1'\"/+=:;.(){}\n\r \\[]*#_0\t\0\x7f\xc3,,[]<if?:-!&|^~%>ex";
    let byte = BYTES[random.below(BYTES.len())];
    let at = random.below(text.len() + 1);
    match random.below(9) {
        0 if at < text.len() => text[at] = byte,
        1 if at < text.len() => {
            text.remove(at);
        }
        2 => text.insert(at, byte),
        3 => text.truncate(at),
        4 => {
            let end = (at + random.below(8)).min(text.len());
            text.drain(at..end);
        }
        5 => {
            let (gap, word) = (random.of(GAPS), random.of(&WORDS));
            text.splice(at..at, [".", gap, word].concat().bytes());
        }
        6 => {
            let word = random.of(&WORDS);
            text.splice(at..at, word.bytes());
        }
        7 => {
            let sign = random.of(&SIGNS);
            text.splice(at..at, sign.bytes());
        }
        _ => {
            let piece = PHRASES[random.below(PHRASES.len())];
            text.splice(at..at, piece.bytes());
        }
    }
}

/// A random sequence of pieces.
pub fn pieces(random: &mut Random, count: usize) -> Vec<u8> {
    let blank = if random.one_in(2) { " " } else { "" };
    let narrow = random.one_in(2);
    let mut text = String::new();
    for _ in 0..count {
        text.push_str(if narrow { random.of(PIECES) } else { random.of(PHRASES) });
        text.push_str(blank);
    }
    text.into_bytes()
}

/// Each reserved word behind a dot, with each gap between and each thing that may follow; and where the dot is not its last tree.
pub fn words_after_dots() -> Vec<Vec<u8>> {
    const FORMS: &[(&str, &str)] = &[
        ("a.", "(b)/c/d;"),
        ("a.", "(b)/c/;"),
        ("a.", "/b/c;"),
        ("a.", "{}/b/c"),
        ("a.", ";"),
        ("a.", ""),
        ("a.", "x;"),
        ("a.b.", ".c=d;"),
        ("a..", ";"),
        (".", ";"),
        ("if.", ";"),
        ("a.if ", ";"),
        ("(a.)", "(b)/c/;"),
        ("{a.}", "(b)/c/;"),
        ("a.(", ")"),
        ("a.{", "}"),
        ("a.", " f(x){}/b/;"),
        ("x=a.", " f(x){}/b/c;"),
        ("x={a:b.", "/c/d};"),
        ("return a.", "(b)/c/d;"),
        ("a ", ";"),
        ("a=", ";"),
        ("", ":a;"),
    ];
    let mut texts = Vec::new();
    for word in WORDS {
        for (before, after) in FORMS {
            for gap in ["", " ", "\n", "/*c*/", "/*\n*/", "//c\n"] {
                texts.push([before, gap, word, after].concat().into_bytes());
            }
        }
    }
    texts
}

/// Each reserved word in braces and lists: first or behind a comma, or neither, with each gap before it; in objects, and in what is none.
pub fn words_in_braces() -> Vec<Vec<u8>> {
    const FORMS: &[(&str, &str)] = &[
        ("x={", ":a};"),
        ("x={a:b,", ":c};"),
        ("x={a:b,", ":c,};"),
        ("x={a:", "};"),
        ("x={a ", ":b};"),
        ("x={a:(b,", ")};"),
        ("x={a:[", "]};"),
        ("x={", "/a/b};"),
        ("x={", "(a)/b/c};"),
        ("x={", "{}/a/};"),
        ("x={a:b,", "(c)/d/e};"),
        ("x={", ""),
        ("{", ":a;}"),
        ("{a,", ":b;}"),
        ("f(a,", ");"),
        ("[a,", "];"),
        ("[", "];"),
        ("f(", ");"),
        ("f({a:b},{c:d,", ":e});"),
    ];
    let mut texts = Vec::new();
    for word in WORDS {
        for (before, after) in FORMS {
            for gap in ["", "\n", "/*c*/", "//c\n"] {
                texts.push([before, gap, word, after].concat().into_bytes());
            }
        }
    }
    texts
}

/// Each sign and each word before and behind slashes, braces, `++` and `:`, and in the places of statements' words, with each gap.
pub fn operators() -> Vec<Vec<u8>> {
    const FORMS: &[(&str, &str)] = &[
        ("a", "b/c/d;"),
        ("a", "/b/;"),
        ("a", "/b/c;"),
        ("", "/b/;"),
        ("", "/b/c;"),
        ("", "a;"),
        ("a/b", "c;"),
        ("/b/", "a;"),
        ("/b/g", "/c/d;"),
        ("a", "{}/b/;"),
        ("a", "{}/b/c;"),
        ("x=a", "{}/b/;"),
        ("x=a", "{}/b/c;"),
        ("x=", "{}/b/;"),
        ("x=", "{}/b/c;"),
        ("(", "{}/b/c);"),
        ("{", "{}/b/}"),
        ("a", "function(){}/b/;"),
        ("a", "function(){}/b/c;"),
        ("x=", "function f(){}/b/c;"),
        ("a", "++b;"),
        ("a", "++/b/;"),
        ("a++", "b;"),
        ("a++", "/b/;"),
        ("a--", ";"),
        ("++", "a;"),
        ("++a", "b;"),
        ("a?b", ":c;"),
        ("a?b:", "c;"),
        ("a?", "b:c;"),
        ("a?", "{}:{}/b/c;"),
        ("a", "?b:c;"),
        ("a", "b?c:d;"),
        ("if(a)", "/b/;"),
        ("if(a)", "b;"),
        ("new", "a;"),
        ("new a", "(b);"),
        ("a", ",b;"),
        ("return", "/b/;"),
        ("a.", "/b/c;"),
        ("x={", ":a};"),
        ("x={a:b,", ":c};"),
        ("f(a", "b,/c/);"),
        ("[a", "b,/c/];"),
        ("a[b", "/c/];"),
        ("a;", "/b/;"),
        ("a", "=b;"),
        ("a", "in b;"),
        ("a", ""),
        ("", ""),
        ("", "(a)/b/;"),
        ("", "(a)/b/c;"),
        ("a", "(a)/b/c;"),
        ("(", "(a)/b/);"),
        ("(a", "{}/b/c);"),
        ("(a", "{}/b/);"),
        ("{a", "{}/b/}"),
        ("x={a:b", "{}/c/d};"),
        ("(a;", "{}/b/c);"),
        ("a;", "function(){}/b/;"),
        ("(a", "function(){}/b/c);"),
        ("", "{}(a)/b/;"),
        ("", "(a);"),
        ("", "(a){}/b/;"),
        ("", "b;"),
        ("", ";"),
        ("var ", ";"),
        ("var a", "b;"),
        ("var a", "b,c;"),
        ("if(a);", ";"),
        ("if(a);", "b;"),
        ("if(a)b;else", "c;"),
        ("do;", "(a);"),
        ("do ", ";while(a);"),
        ("do;while(a)", "/b/;"),
        ("while", "(a);"),
        ("while(a)", "/b/;"),
        ("break", ";"),
        ("break a", ";"),
        ("throw", "/b/;"),
        ("", "(;;);"),
        ("for(", ";;);"),
        ("for(", "a;;);"),
        ("for(a", "b;;);"),
        ("for(a", "b);"),
        ("for(a.b", "{}/c);"),
        ("for(var a", "b);"),
        ("for(var a=b", "c);"),
        ("for(var a=b", "c;;);"),
        ("for(var a,b", "c);"),
        ("for(a?b", "c:d;;);"),
        ("for(a?b:c", "d;;);"),
        ("for(;", "{}/a/b;);"),
        ("for(;;", ")/a/;"),
        ("for(;;)", "/a/;"),
        ("switch(a)", "{}"),
        ("switch(a){", ":}"),
        ("switch(a){", "a:}"),
        ("switch(a){case", "/a/:}"),
        ("switch(a){case a", ":}"),
        ("switch(a){case a:", ":}"),
        ("switch(a){case a:", "b;}"),
        ("switch(a){case a:", "{}/b/;}"),
        ("switch(a){default:", ":}"),
        ("switch(a){default", "{}/a/;}"),
        ("switch(a){}", "/b/;"),
        ("", "{}finally{}"),
        ("try", "{}finally{}"),
        ("try{}", "{}"),
        ("try{}", "(a){}"),
        ("try{}catch(", "){}"),
        ("try{}catch(a)", "{}"),
        ("try{}catch(a){}", "{}"),
        ("try{}catch(a){}", "/b/;"),
        ("try{}finally{}", "(a){}"),
    ];
    let mut texts = Vec::new();
    for operator in SIGNS.into_iter().chain(WORDS) {
        for (before, after) in FORMS {
            for (left, right) in [("", ""), (" ", " "), ("\n", ""), ("", "\n"), ("/*\n*/", " "), (" ", "//c\n")] {
                texts.push([before, left, operator, right, after].concat().into_bytes());
            }
        }
    }
    texts
}

/// Two operators side by side, of each two.
pub fn neighbours() -> Vec<Vec<u8>> {
    let operators: Vec<&str> = [BINARY_OPERATORS, ASSIGNMENT_OPERATORS, &["?", ":", ",", "++", "--", "."]].concat();
    let mut texts = Vec::new();
    for first in &operators {
        for second in &operators {
            texts.push(["a ", first, " b ", second, " c;"].concat().into_bytes());
            texts.push(["a ", first, "/b/ ", second, "/c/;"].concat().into_bytes());
            texts.push(["a?b ", first, " c:d ", second, " e;"].concat().into_bytes());
            texts.push(["a ", first, " b?c:d ", second, " e;"].concat().into_bytes());
            texts.push(["for(a ", first, " b ", second, " c;;);"].concat().into_bytes());
            texts.push(["for(a ", first, " b ", second, " c);"].concat().into_bytes());
            texts.push(["for(var a ", first, " b ", second, " c);"].concat().into_bytes());
            texts.push(["for(;a ", first, " b;c ", second, " d);"].concat().into_bytes());
        }
        for second in PREFIX_OPERATORS.iter().chain(&["new"]) {
            texts.push(["a ", first, " ", second, " b;"].concat().into_bytes());
            texts.push([second, " a ", first, " b;"].concat().into_bytes());
            texts.push([second, "(a) ", first, "/b/;"].concat().into_bytes());
            texts.push([second, " a++", first, " b;"].concat().into_bytes());
            texts.push(["for(", second, " a ", first, " b;;);"].concat().into_bytes());
            texts.push(["for(", second, " a ", first, " b);"].concat().into_bytes());
        }
    }
    texts
}

/// Random bytes: of all, or of those that make elements.
pub fn bytes(random: &mut Random, count: usize) -> Vec<u8> {
    const BYTES: &[u8] = b"aab10'\"//**+=:;.,,(){}[]\\\n \rif?-+-!&|<>^~%ex";
    let all = random.one_in(4);
    (0..count).map(|_| if all { random.next() as u8 } else { BYTES[random.below(BYTES.len())] }).collect()
}

fn repeated(before: &str, run: &str, count: usize, after: &str) -> Vec<u8> {
    let mut text = before.as_bytes().to_vec();
    for _ in 0..count {
        text.extend_from_slice(run.as_bytes());
    }
    text.extend_from_slice(after.as_bytes());
    text
}

/// Programs that make one run as long as 16,384 tree records allow, or groups as deep as 100.
pub fn longest_runs() -> Vec<(&'static str, Vec<u8>)> {
    let run = |name, before, run, trees: usize, after, around: usize| (name, repeated(before, run, (MOST_TREES - around) / trees, after));
    let within = |depth: usize, before: &str, open: &str, inside: &[u8], close: &str, after: &str| {
        let mut text = repeated(before, open, depth, "");
        text.extend_from_slice(inside);
        text.extend(repeated("", close, depth, after));
        text
    };
    let nested = |before, open, inside, close, after| within(DEEPEST, before, open, inside, close, after);
    let almost = |before, open, inside, close, after| within(DEEPEST - 1, before, open, inside, close, after);
    vec![
        run("labels", "", "a:", 2, "a;", 2),
        run("ifs", "", "if(a)", 3, "a;", 2),
        run("ifs and labels", "", "if(a)b:", 5, "a;", 2),
        run("assignments", "", "a=", 2, "a;", 2),
        run("calls", "a", "(a)", 2, ";", 2),
        run("members", "a", ".a", 2, ";", 2),
        run("words as members", "a", ".in", 2, ";", 2),
        run("members and calls", "a", ".a(b)", 4, ";", 2),
        run("empty calls", "a", "()", 1, ";", 2),
        run("indexes", "a", "[a]", 2, ";", 2),
        run("arguments", "a(", "a,", 2, "a);", 4),
        run("elements", "[", "a,", 2, "];", 2),
        run("holes", "[", ",", 1, "];", 2),
        run("properties", "x={", "a:a,", 4, "};", 4),
        run("words as properties", "x={", "in:a,", 4, "};", 4),
        run("parameters", "function f(", "a,", 2, "a){}", 5),
        run("divided elements", "[", "a/a,", 4, "];", 2),
        run("assigned elements", "[", "a=a,", 4, "];", 2),
        run("divides", "a", "/a", 2, ";", 2),
        run("pluses", "a", "+a", 2, ";", 2),
        run("operators", "a", "/a+a", 4, ";", 2),
        run("statements", "", "a;", 2, "", 0),
        run("returns", "", "return;", 2, "", 0),
        run("blocks", "", "{}", 1, "", 0),
        run("functions", "", "function f(a){}", 5, "", 0),
        run("objects", "x=", "{}/", 2, "a;", 4),
        run("assignments to objects", "x=", "{}=", 2, "a;", 4),
        run("assignments to parentheses", "", "(a)=", 3, "a;", 2),
        run("assignments to calls", "", "a(a)=", 4, "a;", 2),
        run("assigned functions", "", "a.b=", 4, "function f(a){};", 6),
        run("nots", "", "!", 1, "a;", 2),
        run("minuses before", "", "- ", 1, "a;", 2),
        run("voids", "", "void ", 1, "a;", 2),
        run("pluses before and increments", "", "+ ++", 2, "a;", 2),
        run("news", "", "new ", 1, "a;", 2),
        ("news with arguments", within((MOST_TREES - 2) / 2, "", "new ", b"a", "()", ";")),
        run("conditionals", "", "a?a:", 4, "a;", 2),
        ("conditionals in the middle", within((MOST_TREES - 2) / 4, "", "a?", b"a", ":a", ";")),
        run("conditionals of assignments", "", "a?a=a:a=", 8, "a;", 2),
        run("commas", "a", ",a", 2, ";", 2),
        run("commas in a group", "(a", ",a", 2, ");", 3),
        run("all assignments", "", "a=a+=a>>>=", 6, "a;", 2),
        run("increments", "", "a++;", 3, "", 0),
        run("decrements before", "", "--a;", 3, "", 0),
        run("rising operators", "a", "||a&&a|a^a&a==a<a<<a+a*a", 20, ";", 2),
        run("operators of words", "a", " in a instanceof a", 4, ";", 2),
        run("not and divides", "!a", "/!a", 3, ";", 3),
        run("this", "this", ".this", 2, ";", 2),
        run("numbers", ".5", "/1.e3/0x1", 4, ";", 2),
        run("empty statements", "", ";", 1, "", 0),
        run("vars", "", "var a;", 3, "", 0),
        run("variables", "var a", ",a", 2, ";", 3),
        run("initialised variables", "var a=a", ",a=a", 4, ";", 5),
        run("assignments of a variable", "var a", "=a", 2, ";", 3),
        run("else ifs", "", "if(a)a;else ", 6, "a;", 2),
        ("ifs and elses", within((MOST_TREES - 1) / 5, "", "if(a)", b";", "else;", "")),
        run("ifs and whiles with else", "if(a)", "while(a)if(a);else ", 8, ";", 4),
        run("whiles", "", "while(a)", 3, ";", 1),
        run("withs, ifs and labels", "", "x:with(a)if(a)", 8, ";", 1),
        run("dos in a row", "", "do;while(a);", 6, "", 0),
        ("dos", within((MOST_TREES - 1) / 5, "", "do ", b";", "while(a);", "")),
        ("dos of ifs and elses", within((MOST_TREES - 1) / 10, "", "do if(a)", b";", "else;while(a);", "")),
        ("ifs and elses of dos", within((MOST_TREES - 1) / 10, "", "if(a)do ", b";", "while(a);else;", "")),
        run("throws", "", "throw a;", 3, "", 0),
        run("jumps", "", "break;continue a;", 5, "", 0),
        run("debuggers", "", "debugger;", 2, "", 0),
        run("fors", "", "for(;;)", 4, ";", 1),
        run("fors of three parts", "", "for(a;a;a)", 7, ";", 1),
        run("fors of variables", "", "for(var a=a;;)", 8, ";", 1),
        run("fors in", "", "for(a in a)", 5, ";", 1),
        run("fors in of variables", "", "for(var a=a in a)", 8, ";", 1),
        run("labels, fors in and ifs", "", "x:for(a in a)if(a)", 10, ";", 1),
        run("variables of a for", "for(var a", ",a", 2, ";;);", 7),
        run("initialised variables of a for", "for(var a=a", ",a=a", 4, ";;);", 9),
        run("assignments of a variable of a for in", "for(var a", "=a", 2, " in a);", 7),
        run("conditionals of a for", "for(", "a?a in a:", 6, "a;;);", 6),
        run("members of a for in", "for(a", ".a", 2, " in a);", 6),
        run("commas of a for", "for(;;a", ",a", 2, ");", 6),
        ("ifs and elses of fors", within((MOST_TREES - 1) / 9, "", "if(a)for(;;)", b";", "else;", "")),
        ("dos of fors", within((MOST_TREES - 1) / 9, "", "do for(;;)", b";", "while(a);", "")),
        run("switches", "", "switch(a){}", 4, "", 0),
        run("cases", "switch(a){", "case a:", 3, "}", 4),
        run("cases of objects", "switch(a){", "case{}/a:", 5, "}", 4),
        run("cases with statements behind a default", "switch(a){default:", "case a:{}a;", 6, "}", 6),
        run("conditionals of a case", "switch(a){case ", "a?a:", 4, "a:}", 7),
        run("statements of a case", "switch(a){case a:", ";", 1, "}", 7),
        run("ifs of a default", "switch(a){default:", "if(a)", 3, ";}", 7),
        run("tries", "", "try{}catch(a){}", 6, "", 0),
        run("tries with finally", "", "try{}finally{}", 4, "", 0),
        run("tries with both", "", "try{}catch(a){}finally{}", 8, "", 0),
        run("tries and ifs", "", "if(a)try{}catch(a){}else ", 10, ";", 1),
        ("parentheses", nested("x=", "(", b"a", ")", ";")),
        ("blocks within", nested("", "{", b"a;", "}", "")),
        ("objects within", nested("x=", "{a:", b"a", "}", ";")),
        ("functions within", nested("", "function f(a){", b"a;", "}", "")),
        ("functions in expressions", nested("", "a=function f(a){", b"a;", "};", "")),
        ("calls within", nested("a", "(a", b"", ")", ";")),
        ("ifs and elses within", nested("", "if(a){", b"", "}else;", "")),
        ("dos within", nested("", "do{", b"", "}while(a);", "")),
        ("dos, blocks and a run", almost("", "do{x:", &within((MOST_TREES - 8 * DEEPEST - 1) / 5, "", "do ", b";", "while(a);", ""), "}while(a);", "")),
        ("variables within", almost("", "var a=function(){", &repeated("var a", ",a", (MOST_TREES - 7 * DEEPEST - 3) / 2, ";"), "};", "")),
        ("fors within", nested("", "for(;;){", b"", "}", "")),
        ("heads of fors within", within(DEEPEST / 2, "", "for(a=function(){", b"", "};;);", "")),
        ("objects of fors in within", within(DEEPEST / 2, "", "for(var a in function(){", b"", "});", "")),
        ("switches within", nested("", "switch(a){case a:", b"", "}", "")),
        ("switches of defaults within", nested("", "switch(a){default:", b"", "case a:}", "")),
        ("switches and a run", almost("", "switch(a){case a:x:", &repeated("", "for(;;)", (MOST_TREES - 9 * DEEPEST - 1) / 4, ";"), "}", "")),
        ("cases within", nested("", "switch(a){case a:", &repeated("", "case a:;", (MOST_TREES - 7 * DEEPEST) / 4, ""), "}", "")),
        ("tries within", nested("", "try{", b"", "}finally{}", "")),
        ("catches within", nested("", "try{}catch(a){", b"", "}", "")),
        ("finallies within", nested("", "try{}finally{", b"", "}", "")),
        ("tries and a run", almost("", "if(a)try{", &repeated("", "x:for(a in a)if(a)", (MOST_TREES - 11 * DEEPEST - 1) / 10, ";"), "}catch(a){}else;", "")),
        ("arrays within", nested("", "[", b"", "]", ";")),
        ("lists within", nested("", "[a,", &repeated("", "a,", (MOST_TREES - 5 * DEEPEST - 2) / 2, ""), ",a]", ";")),
        ("indexes within", nested("a", "[a", b"", "]", ";")),
        ("arguments within", almost("a(a", ",b(a", b"", ")", ");")),
        ("unnamed functions within", within(DEEPEST / 2, "", "a(b,function(){", b"a;", "});", "")),
        ("divided calls within", nested("a", "/a+a(a", b"", ")", ";")),
        ("labels, blocks and a run", almost("", "{a:if(a)", &repeated("", "a:", (MOST_TREES - 6 * DEEPEST - 2) / 2, "a;"), "}", "")),
        ("parentheses and a run", nested("x=", "a=(", &repeated("", "a=", (MOST_TREES - 3 * DEEPEST - 4) / 2, "a"), ")", ";")),
        ("operators, functions and a run", nested("", "a+a/function f(a){", &repeated("", "a=", (MOST_TREES - 10 * DEEPEST - 2) / 2, "a;"), "};", "")),
        ("functions and a run", almost("", "if(a)x=function f(a){", &repeated("", "if(a)", (MOST_TREES - 11 * DEEPEST - 2) / 3, "a;"), "};", "")),
    ]
}

/// Texts with such runs and groups that the parser refuses only near their end.
pub fn refused_runs() -> Vec<(&'static str, Vec<u8>)> {
    let nested = |depth: usize, open: &str, inside: &[u8], close: &str| {
        let mut text = repeated("", open, depth, "");
        text.extend_from_slice(inside);
        text.extend(repeated("", close, depth, ""));
        text
    };
    vec![
        ("labels and no statement", repeated("", "a:", MOST_TREES / 2, "")),
        ("ifs and no statement", repeated("", "if(a)", MOST_TREES / 3, "")),
        ("assignments and no value", repeated("", "a=", MOST_TREES / 2, "")),
        ("assignments and an open divide", repeated("", "a=", MOST_TREES / 2 - 1, "a/")),
        ("operators and no operand", repeated("a", "/a+a", MOST_TREES / 4 - 1, "/")),
        ("calls and no semicolon", repeated("a", "(a)", (MOST_TREES - 1) / 2, "")),
        ("elements and no bracket but a comma", repeated("a([", "a,", (MOST_TREES - 5) / 2, "],);")),
        ("properties and a comma", repeated("x={", "a:a,", (MOST_TREES - 5) / 4, ",};")),
        ("arrays and an open divide", nested(DEEPEST, "[a,", &repeated("", "a=", (MOST_TREES - 3 * DEEPEST - 2) / 2, "a/"), "]")),
        ("functions and an open function", repeated("", "function f(a){}", MOST_TREES / 5 - 1, "function f(a)")),
        ("parentheses and no operand", nested(DEEPEST, "a=(", &repeated("", "a=", (MOST_TREES - 3 * DEEPEST) / 2, ""), ")")),
        ("operators, functions and an open divide", nested(DEEPEST, "a+a/function f(a){", &repeated("", "a=", 7_740, "a+a/"), "}")),
        ("nots and no operand", repeated("", "!", MOST_TREES, "")),
        ("news and no operand", repeated("", "new ", MOST_TREES, "")),
        ("news and a name behind an increment", repeated("", "new ", MOST_TREES - 3, "a++b")),
        ("conditionals and no colon", repeated("", "a?", MOST_TREES / 2 - 1, "a;")),
        ("conditionals and an open divide", repeated("", "a?a:", MOST_TREES / 4 - 1, "a/;")),
        ("commas and no operand", repeated("a", ",a", MOST_TREES / 2 - 1, ",")),
        ("assignments and a name behind an increment", repeated("", "a=a-=", MOST_TREES / 4 - 1, "a++b")),
        ("rising operators and no operand", repeated("a", "||a&&a|a^a&a==a<a<<a+a*a", MOST_TREES / 20 - 1, "||")),
        ("minuses and increments of nothing", repeated("", "- ++", MOST_TREES / 2, "")),
        ("increments and an assignment to one", repeated("", "a++;", MOST_TREES / 3 - 2, "a++=a;")),
        ("parentheses of conditionals and an open one", nested(DEEPEST, "a?(", &repeated("", "a?", (MOST_TREES - 3 * DEEPEST) / 2 - 1, "a"), ")")),
        ("dos and no statement", repeated("", "do ", MOST_TREES, "")),
        ("dos and no while", repeated("", "do ", MOST_TREES - 1, ";")),
        ("dos and no condition", [repeated("", "do ", MOST_TREES / 5, ";"), repeated("", "while(a);", MOST_TREES / 5 - 1, "while")].concat()),
        ("dos and a pattern", [repeated("", "do ", MOST_TREES / 5, ";"), repeated("", "while(a);", MOST_TREES / 5 - 1, "while(a)/b/;")].concat()),
        ("whiles and no statement", repeated("", "while(a)", MOST_TREES / 3, "")),
        ("withs, ifs and labels and no statement", repeated("", "x:with(a)if(a)", MOST_TREES / 8, "")),
        ("else ifs and no statement", repeated("", "if(a)a;else ", MOST_TREES / 6, "")),
        ("ifs and an else too many", [repeated("", "if(a)", (MOST_TREES - 2) / 5, ";"), repeated("", "else;", (MOST_TREES - 2) / 5, "else")].concat()),
        ("whiles and an else", repeated("", "while(a)", (MOST_TREES - 2) / 3, ";else")),
        ("variables and no name", repeated("var a", ",a", MOST_TREES / 2 - 2, ",")),
        ("initialised variables and no value", repeated("var a", ",a=a", MOST_TREES / 4 - 2, ",a=")),
        ("empty statements and an else", repeated("", ";", MOST_TREES - 1, "else")),
        ("fors and no statement", repeated("", "for(;;)", MOST_TREES / 4, "")),
        ("fors and a head of one part", repeated("", "for(;;)", MOST_TREES / 4 - 1, "for(a)")),
        ("fors in and an else", repeated("", "for(a in a)", (MOST_TREES - 2) / 5, ";else")),
        ("labels, fors in and ifs and no statement", repeated("", "x:for(a in a)if(a)", MOST_TREES / 10, "")),
        ("variables of a for and in", repeated("for(var a", ",a", (MOST_TREES - 7) / 2, " in a);")),
        ("variables of a for and no name", repeated("for(var a", ",a", (MOST_TREES - 8) / 2, ",;;);")),
        ("conditionals of a for and in", repeated("for(", "a?a:", (MOST_TREES - 8) / 4, "a in a;;);")),
        ("commas of a for and in", repeated("for(a", ",a", (MOST_TREES - 6) / 2, " in a);")),
        ("dos of fors and no while", repeated("", "do for(;;)", (MOST_TREES - 2) / 5, ";else")),
        ("cases and no colon", repeated("switch(a){", "case a:", (MOST_TREES - 6) / 3, "case a}")),
        ("cases and a second default", repeated("switch(a){default:", "case a:", (MOST_TREES - 8) / 3, "default:}")),
        ("statements of a case and a declaration", repeated("switch(a){case a:", ";", MOST_TREES - 11, "function f(){}}")),
        ("switches within and a second default", nested(DEEPEST, "switch(a){default:", &repeated("", ";", MOST_TREES - 6 * DEEPEST - 2, "default:"), "}")),
        ("switches within and an else", nested(DEEPEST, "switch(a){case a:", &repeated("", ";", MOST_TREES - 8 * DEEPEST, ""), "}else ")),
        ("tries and no handler", repeated("", "try{}catch(a){}", MOST_TREES / 6 - 1, "try{}")),
        ("tries and a second finally", repeated("", "try{}catch(a){}finally{}", MOST_TREES / 8 - 1, "finally{}")),
        ("tries within and no handler", nested(DEEPEST, "try{", &repeated("", ";", MOST_TREES - 2 * DEEPEST, ""), "}")),
        ("catches within and a catch", nested(DEEPEST - 1, "try{}catch(a){", &repeated("", ";", MOST_TREES - 6 * DEEPEST, "catch(a){}"), "}")),
        ("functions and no statement", nested(DEEPEST - 1, "if(a)x=function f(a){", &repeated("", "if(a)", (MOST_TREES - 10 * DEEPEST) / 3, ""), "}")),
    ]
}

/// Texts near the limits of length, depth and records.
pub fn limits() -> Vec<Vec<u8>> {
    let mut texts: Vec<Vec<u8>> = Vec::new();
    for length in [LONGEST_TEXT - 1, LONGEST_TEXT, LONGEST_TEXT + 1, LONGEST_TEXT + 7] {
        texts.push(vec![b' '; length]);
        texts.push(vec![b'\n'; length]);
        texts.push(vec![b'a'; length]);
        texts.push(vec![0; length]);
        texts.push(repeated("//", "x", length - 2, ""));
        texts.push(repeated("/*", "*", length - 4, "*/"));
        texts.push(repeated("/*", "\n", length - 2, ""));
        texts.push(repeated("'", "\\'", (length - 3) / 2, "';"));
        texts.push(repeated("a", "\n", length - 2, ";"));
        texts.push(repeated("a=/[", "/", length - 7, "]/;"));
    }
    for depth in [DEEPEST - 1, DEEPEST, DEEPEST + 1, DEEPEST + 30] {
        for (open, close) in [("(", ")"), ("{", "}"), ("[", "]"), ("({", "})"), ("{(", ")}"), ("[{", "}]"), ("x={a:", "}"), ("function f(x){", "}")] {
            let times = depth / open.matches(['(', '{', '[']).count().min(close.len());
            for inside in ["", "a", "a;", "(", "{", "[", ")", "]", ",", "/"] {
                let mut text = repeated("", open, times, inside);
                text.extend(repeated("", close, times, ""));
                texts.push(text.clone());
                text.push(b';');
                texts.push(text);
            }
            texts.push(repeated("", open, times, ""));
        }
    }
    for count in [MOST_TREES - 1, MOST_TREES, MOST_TREES + 1] {
        for (run, trees, last) in [("a;", 2, "a"), (";", 1, ""), ("a ", 1, ""), ("()", 1, ""), ("[]", 1, ""), (",", 1, ""), ("{a}", 2, "1"), ("a+", 2, "a"), ("+", 0, ""), ("1\n", 1, "")] {
            if trees > 0 {
                let rest = count % trees;
                texts.push(repeated("", run, count / trees, if rest == 0 { "" } else { last }));
            }
        }
        texts.push(repeated("", "a;", count / 2, "while"));
        texts.push(repeated("", "a;", count / 2, "class"));
        texts.push(repeated("", ".while", count / 2, ""));
        texts.push(repeated("", ".while", count / 2, ".if"));
        texts.push(repeated("", "a.in;", count / 4, "class"));
        texts.push(repeated("", ".while", count / 2, " class"));
        texts.push(repeated("", "a;", count / 2, "(((1.x"));
        texts.push(repeated("", "a;", count / 2, ")"));
    }
    for (_, text) in refused_runs() {
        texts.push(text);
    }
    for (_, text) in longest_runs() {
        let mut cut = text.clone();
        cut.pop();
        texts.push(cut);
        let mut doubled = text.clone();
        doubled.push(text[text.len() - 1]);
        texts.push(doubled);
        let mut middle = text.clone();
        middle[text.len() / 2] = b'+';
        texts.push(middle);
        texts.push(text);
    }
    texts
}
