//! Reading and respacing: the prefix rule, tree records, refusals 1 to 12 and 15.

use crate::elements::{element, gap, is_taken, Class, Element, Fault, VALUE_WORDS, WORD_OPERATORS};

pub const LONGEST_TEXT: usize = 262_144;
pub const MOST_TREES: usize = 16_384;
pub const DEEPEST: usize = 100;

const NAME: u32 = 1;
const WORD: u32 = 2;
const NUMBER: u32 = 3;
const STRING: u32 = 4;
const PATTERN: u32 = 5;
const SIGN: u32 = 6;
pub const PARENTHESES: u32 = 7;
pub const OBJECT: u32 = 8;
pub const BLOCK: u32 = 9;
pub const BRACKETS: u32 = 10;
/// `++` or `--` before its operand, and after it; a `:` that answers a `?`.
pub const BEFORE: u32 = 11;
pub const AFTER: u32 = 12;
pub const ANSWER: u32 = 13;

pub type Tree = [u32; 5];

pub struct Reading {
    pub trees: Vec<Tree>,
    /// Every element, closers included, in text order.
    pub elements: Vec<Element>,
}

/// A tree of a level: its index among all, its kind, and the class of its first element.
#[derive(Clone, Copy)]
struct Before {
    index: usize,
    kind: u32,
    class: Class,
}

/// A level: the inside of a group, or the whole text (which has no opener).
struct Level {
    opener: Option<usize>,
    expression: bool,
    object: bool,
    /// Its trees so far, and how many `?` among them no `:` has answered.
    trees: Vec<Before>,
    unanswered: usize,
}

impl Level {
    fn new(opener: Option<usize>, kind: u32) -> Self {
        Level { opener, expression: kind != BLOCK, object: kind == OBJECT, trees: Vec::new(), unanswered: 0 }
    }

    /// The tree so many back; the last is one back.
    fn tree(&self, back: usize) -> Option<Before> {
        self.trees.len().checked_sub(back).map(|at| self.trees[at])
    }

    fn kind(&self, back: usize) -> Option<u32> {
        self.tree(back).map(|tree| tree.kind)
    }

    /// Is the tree so many back a certain reserved word?
    fn is_word(&self, back: usize, word: &'static str) -> bool {
        self.tree(back).is_some_and(|tree| tree.class == Class::Word(word))
    }

    /// Would a `{` after the first `count` trees open an object?
    fn opens_object(&self, count: usize, line: bool) -> bool {
        let Some(last) = count.checked_sub(1).map(|last| self.trees[last]) else {
            return self.expression;
        };
        match (last.kind, last.class) {
            (WORD, Class::Word("return" | "throw")) => !line,
            (WORD, Class::Word(word)) => word == "case" || WORD_OPERATORS.contains(&word),
            (SIGN, Class::Sign(":" | ";")) => self.expression,
            (SIGN, Class::Sign(".")) => false,
            (SIGN | BEFORE | ANSWER, _) => true,
            _ => false,
        }
    }

    /// Does a `/` here open a regular expression?
    fn opens_pattern(&self, trees: &[Tree]) -> bool {
        if self.kind(2) == Some(PARENTHESES) && self.kind(1) == Some(BLOCK) {
            let back = match self.kind(3) {
                Some(NAME) if self.is_word(4, "function") => 4,
                _ if self.is_word(3, "function") => 3,
                _ => 0,
            };
            if back > 0 {
                let function = self.trees.len() - back;
                let line = trees[self.trees[function].index][4] == 1;
                return !self.opens_object(function, line);
            }
        }
        let Some(last) = self.tree(1) else {
            return true;
        };
        match (last.kind, last.class) {
            (WORD, Class::Word(word)) => !VALUE_WORDS.contains(&word),
            (PARENTHESES, _) => ["if", "while", "for", "with"].into_iter().any(|word| self.is_word(2, word)),
            (SIGN | BEFORE | ANSWER | BLOCK, _) => true,
            _ => false,
        }
    }

    /// What an element is here: a reserved word whose last tree is a dot, and one that stands first or after a comma in an object brace, becomes a
    /// name; elsewhere one that is not taken is refused.
    fn settled(&self, found: Element) -> Result<Element, Fault> {
        let named = match self.tree(1).map(|last| last.class) {
            Some(Class::Sign(".")) => true,
            Some(Class::Sign(",")) | None => self.object,
            _ => false,
        };
        match found.class {
            Class::Word(_) if named => Ok(Element { class: Class::WordAsName, ..found }),
            Class::Word(word) if !is_taken(word) => Err((7, found.first)),
            _ => Ok(found),
        }
    }

    /// The kind that an element's tree has here; an opener's is that of its group.
    fn kind_of(&self, found: Element, pattern: bool) -> u32 {
        match found.class {
            Class::Name | Class::WordAsName => NAME,
            Class::Word(_) => WORD,
            Class::Number => NUMBER,
            Class::Text => STRING,
            Class::Pattern => PATTERN,
            Class::Sign("(") => PARENTHESES,
            Class::Sign("[") => BRACKETS,
            Class::Sign("{") if self.opens_object(self.trees.len(), found.line) => OBJECT,
            Class::Sign("{") => BLOCK,
            Class::Sign("++" | "--") if pattern || found.line => BEFORE,
            Class::Sign("++" | "--") => AFTER,
            Class::Sign(":") if self.unanswered > 0 => ANSWER,
            Class::Sign(_) => SIGN,
        }
    }

    fn add(&mut self, tree: Before) {
        self.unanswered = match tree.class {
            Class::Sign("?") => self.unanswered + 1,
            Class::Sign(":") => self.unanswered.saturating_sub(1),
            Class::Sign(";") => 0,
            _ => self.unanswered,
        };
        self.trees.push(tree);
    }
}

/// Reads a text where so many tree records have room (and never more than 16,384).
pub fn reading(text: &[u8], room: usize) -> Result<Reading, Fault> {
    if text.len() > LONGEST_TEXT {
        return Err((1, LONGEST_TEXT));
    }
    let room = room.min(MOST_TREES);
    let mut trees: Vec<Tree> = Vec::new();
    let mut elements = Vec::new();
    // The whole text is a statement level, as the inside of a block is.
    let mut levels = vec![Level::new(None, BLOCK)];
    let mut from = 0;
    loop {
        let depth = levels.len() - 1;
        let level = levels.last_mut().expect("the whole text");
        let (at, line) = gap(text, from)?;
        if at == text.len() {
            return match level.opener {
                Some(opener) => Err((11, trees[opener][1] as usize)),
                None => Ok(Reading { trees, elements }),
            };
        }
        let pattern = level.opens_pattern(&trees);
        let found = level.settled(element(text, at, line, pattern)?)?;
        from = found.end;
        elements.push(found);
        if found.is_closer() {
            let kinds: &[u32] = match found.class {
                Class::Sign(")") => &[PARENTHESES],
                Class::Sign("]") => &[BRACKETS],
                _ => &[OBJECT, BLOCK],
            };
            match level.opener {
                Some(opener) if kinds.contains(&trees[opener][0]) => {
                    trees[opener][2] = found.end as u32;
                    trees[opener][3] = (trees.len() - opener) as u32;
                    levels.pop();
                }
                _ => return Err((10, at)),
            }
            continue;
        }
        let (index, kind) = (trees.len(), level.kind_of(found, pattern));
        let group = matches!(found.class, Class::Sign("(" | "{" | "["));
        if group && depth == DEEPEST {
            return Err((9, at));
        }
        if index == room {
            return Err((12, at));
        }
        level.add(Before { index, kind, class: found.class });
        if group {
            levels.push(Level::new(Some(index), kind));
            trees.push([kind, at as u32, 0, 0, line as u32]);
        } else {
            trees.push([kind, at as u32, found.end as u32, 1, line as u32]);
        }
    }
}

/// The respaced text of a reading.
pub fn respaced(text: &[u8], elements: &[Element]) -> Vec<u8> {
    let mut output = Vec::new();
    for (index, element) in elements.iter().enumerate() {
        if element.line && !element.is_closer() {
            output.push(0x0a);
        } else if index > 0 {
            output.push(0x20);
        }
        output.extend_from_slice(&text[element.first..element.end]);
    }
    output.push(0x0a);
    output
}
