//! The syntax tree of a program, by recursive descent over all its elements, closers included; expressions and statements in the parts of ES5.1 chapters 11 and 12. Where it fails is
//! compared with the recogniser, which knows no order of trying.

use crate::elements::{Class, Element};

pub type Record = [u32; 3];

/// Index of the next element, or of the one where the elements cannot go on (their number, if they end too soon).
type Step = Result<usize, usize>;

/// The same, and whether what was passed may be assigned to: a LeftHandSideExpression and no more.
type Operand = Result<(usize, bool), usize>;

/// Syntax records, and the marks of the `:`s that answer a `?`.
pub struct Tree {
    pub records: Vec<Record>,
    pub answers: Vec<u32>,
}

pub struct Descent<'a> {
    elements: &'a [Element],
    /// Tree records before each element, and in all.
    marks: Vec<u32>,
    records: Vec<Record>,
    answers: Vec<u32>,
}

pub fn syntax_tree(elements: &[Element]) -> Result<Tree, usize> {
    let mut marks = Vec::with_capacity(elements.len() + 1);
    let mut count = 0;
    for element in elements {
        marks.push(count);
        if !element.is_closer() {
            count += 1;
        }
    }
    marks.push(count);
    let mut descent = Descent { elements, marks, records: Vec::new(), answers: Vec::new() };
    let mut at = 0;
    while at < elements.len() {
        at = descent.declaration_or_statement(at)?;
    }
    descent.made(20, at, 0);
    Ok(Tree { records: descent.records, answers: descent.answers })
}

impl Descent<'_> {
    fn class(&self, at: usize) -> Option<Class> {
        self.elements.get(at).map(|element| element.class)
    }

    fn is_sign(&self, at: usize, sign: &str) -> bool {
        matches!(self.class(at), Some(Class::Sign(found)) if found == sign)
    }

    fn expect(&self, at: usize, sign: &str) -> Step {
        if self.is_sign(at, sign) {
            Ok(at + 1)
        } else {
            Err(at)
        }
    }

    fn is_word(&self, at: usize, word: &str) -> bool {
        matches!(self.class(at), Some(Class::Word(found)) if found == word)
    }

    fn expect_word(&self, at: usize, word: &str) -> Step {
        if self.is_word(at, word) {
            Ok(at + 1)
        } else {
            Err(at)
        }
    }

    /// The element there, unless a line end lies before it.
    fn on_same_line(&self, at: usize) -> Step {
        match self.elements.get(at) {
            Some(element) if element.line => Err(at),
            _ => Ok(at),
        }
    }

    fn expect_name(&self, at: usize) -> Step {
        if self.class(at) == Some(Class::Name) {
            Ok(at + 1)
        } else {
            Err(at)
        }
    }

    /// A name, or a reserved word that is one.
    fn expect_identifier_name(&self, at: usize) -> Step {
        if matches!(self.class(at), Some(Class::Name | Class::WordAsName)) {
            Ok(at + 1)
        } else {
            Err(at)
        }
    }

    /// Writes the record of a part that is marked by an element and began when there were `start` records.
    fn made(&mut self, kind: u32, mark: usize, start: usize) {
        let size = self.records.len() - start + 1;
        self.records.push([kind, self.marks[mark], size as u32]);
    }

    fn declaration_or_statement(&mut self, at: usize) -> Step {
        if self.class(at) == Some(Class::Word("function")) {
            let next = self.expect_name(at + 1)?;
            self.function(at, next, 19)
        } else {
            self.statement(at)
        }
    }

    fn statement(&mut self, at: usize) -> Step {
        let start = self.records.len();
        match (self.class(at), self.class(at + 1)) {
            (Some(Class::Sign("{")), _) => self.block(at),
            (Some(Class::Word("var")), _) => {
                let (next, _) = self.variables(at, true)?;
                self.expect(next, ";")
            }
            (Some(Class::Sign(";")), _) => {
                self.made(76, at, start);
                Ok(at + 1)
            }
            (Some(Class::Word("if")), _) => {
                let next = self.parenthesised(at + 1)?;
                let next = self.statement(next)?;
                self.made(18, at, start);
                if self.class(next) != Some(Class::Word("else")) {
                    return Ok(next);
                }
                let end = self.statement(next + 1)?;
                self.made(77, next, start);
                Ok(end)
            }
            (Some(Class::Word("do")), _) => {
                let next = self.statement(at + 1)?;
                let next = self.expect_word(next, "while")?;
                let next = self.parenthesised(next)?;
                let next = self.expect(next, ";")?;
                self.made(78, at, start);
                Ok(next)
            }
            (Some(Class::Word(word @ ("while" | "with"))), _) => {
                let next = self.parenthesised(at + 1)?;
                let next = self.statement(next)?;
                self.made(if word == "while" { 79 } else { 86 }, at, start);
                Ok(next)
            }
            (Some(Class::Word("for")), _) => {
                let (next, kind) = self.head(at + 1)?;
                let next = self.statement(next)?;
                self.made(kind, at, start);
                Ok(next)
            }
            (Some(Class::Word("switch")), _) => {
                let next = self.parenthesised(at + 1)?;
                let next = self.expect(next, "{")?;
                let next = self.clauses(next)?;
                self.made(87, at, start);
                Ok(next)
            }
            (Some(Class::Word("try")), _) => {
                let next = self.block(at + 1)?;
                let next = self.handlers(next)?;
                self.made(91, at, start);
                Ok(next)
            }
            (Some(Class::Word(word @ ("return" | "continue" | "break" | "debugger"))), Some(Class::Sign(";"))) => {
                self.made(bare_kind(word), at, start);
                Ok(at + 2)
            }
            (Some(Class::Word(word @ ("continue" | "break"))), _) => {
                let label = self.on_same_line(at + 1)?;
                let next = self.expect_name(label)?;
                let next = self.expect(next, ";")?;
                self.made(if word == "continue" { 83 } else { 85 }, at, start);
                Ok(next)
            }
            (Some(Class::Word(word @ ("return" | "throw"))), _) => {
                let next = self.on_same_line(at + 1)?;
                let (next, _) = self.expression(next, true)?;
                let next = self.expect(next, ";")?;
                self.made(if word == "return" { 15 } else { 90 }, at, start);
                Ok(next)
            }
            (Some(Class::Word("debugger")), _) => Err(at + 1),
            (Some(Class::Name), Some(Class::Sign(":"))) => {
                let next = self.statement(at + 2)?;
                self.made(17, at, start);
                Ok(next)
            }
            (Some(Class::Word("function")), _) => Err(at),
            _ => {
                let (next, _) = self.expression(at, true)?;
                self.expect(next, ";")?;
                self.made(13, next, start);
                Ok(next + 1)
            }
        }
    }

    fn block(&mut self, at: usize) -> Step {
        let start = self.records.len();
        let mut next = self.expect(at, "{")?;
        while !self.is_sign(next, "}") {
            next = self.statement(next)?;
        }
        self.made(16, at, start);
        Ok(next + 1)
    }

    /// A `var` with its variables, each with or without an initialiser, in which `in` is an operator or not; and whether there is only one.
    fn variables(&mut self, at: usize, within: bool) -> Operand {
        let start = self.records.len();
        let mut name = at + 1;
        loop {
            let part = self.records.len();
            let mut next = self.expect_name(name)?;
            if self.is_sign(next, "=") {
                next = self.assignment(next + 1, within)?.0;
            }
            self.made(75, name, part);
            if !self.is_sign(next, ",") {
                self.made(74, at, start);
                return Ok((next, name == at + 1));
            }
            name = next + 1;
        }
    }

    /// The head of a `for`, and the kind that it makes of it.
    fn head(&mut self, at: usize) -> Result<(usize, u32), usize> {
        let first = self.expect(at, "(")?;
        let (next, one) = match self.class(first) {
            Some(Class::Sign(";")) => (first, false),
            Some(Class::Word("var")) => self.variables(first, false)?,
            _ => self.expression(first, false)?,
        };
        if one && self.is_word(next, "in") {
            let (next, _) = self.expression(next + 1, true)?;
            return Ok((self.expect(next, ")")?, 81));
        }
        let second = self.expect(next, ";")?;
        let third = self.expression_before(second, ";")?;
        Ok((self.expression_before(third, ")")?, 80))
    }

    /// An expression, or none, and the sign behind it.
    fn expression_before(&mut self, at: usize, sign: &str) -> Step {
        if self.is_sign(at, sign) {
            return Ok(at + 1);
        }
        let (next, _) = self.expression(at, true)?;
        self.expect(next, sign)
    }

    /// The clauses of a `switch` behind their `{`.
    fn clauses(&mut self, at: usize) -> Step {
        let mut default = false;
        let mut word = at;
        while !self.is_sign(word, "}") {
            let start = self.records.len();
            let (colon, kind) = match self.class(word) {
                Some(Class::Word("case")) => (self.expression(word + 1, true)?.0, 88),
                Some(Class::Word("default")) if !default => (word + 1, 89),
                _ => return Err(word),
            };
            default |= kind == 89;
            let mut next = self.expect(colon, ":")?;
            while !matches!(self.class(next), Some(Class::Sign("}") | Class::Word("case" | "default"))) {
                next = self.statement(next)?;
            }
            self.made(kind, word, start);
            word = next;
        }
        Ok(word + 1)
    }

    /// What stands behind the block of a `try`: a `catch`, a `finally` or both.
    fn handlers(&mut self, at: usize) -> Step {
        let mut next = at;
        if self.is_word(at, "catch") {
            let start = self.records.len();
            let name = self.expect(at + 1, "(")?;
            let closer = self.expect_name(name)?;
            let block = self.expect(closer, ")")?;
            next = self.block(block)?;
            self.made(92, at, start);
        }
        if self.is_word(next, "finally") {
            let (word, start) = (next, self.records.len());
            next = self.block(word + 1)?;
            self.made(93, word, start);
        }
        if next == at {
            return Err(at);
        }
        Ok(next)
    }

    /// A function whose word stands at `at`, from its parameters on.
    fn function(&mut self, at: usize, parameters: usize, kind: u32) -> Step {
        let start = self.records.len();
        let mut next = self.expect(parameters, "(")?;
        if !self.is_sign(next, ")") {
            next = self.expect_name(next)?;
            while self.is_sign(next, ",") {
                next = self.expect_name(next + 1)?;
            }
        }
        next = self.expect(next, ")")?;
        next = self.expect(next, "{")?;
        while !self.is_sign(next, "}") {
            next = self.declaration_or_statement(next)?;
        }
        self.made(kind, at, start);
        Ok(next + 1)
    }

    fn parenthesised(&mut self, at: usize) -> Step {
        let next = self.expect(at, "(")?;
        let (next, _) = self.expression(next, true)?;
        self.expect(next, ")")
    }

    /// Arguments behind their `(`.
    fn arguments(&mut self, at: usize) -> Step {
        let mut next = at;
        if !self.is_sign(next, ")") {
            next = self.assignment(next, true)?.0;
            while self.is_sign(next, ",") {
                next = self.assignment(next + 1, true)?.0;
            }
        }
        self.expect(next, ")")
    }

    /// Elements of an array behind its `[`: holes are commas where an element would stand.
    fn array(&mut self, at: usize) -> Step {
        let mut next = at;
        loop {
            match self.class(next) {
                Some(Class::Sign("]")) => return Ok(next + 1),
                Some(Class::Sign(",")) => next += 1,
                _ => {
                    next = self.assignment(next, true)?.0;
                    if !self.is_sign(next, "]") {
                        next = self.expect(next, ",")?;
                    }
                }
            }
        }
    }

    /// Properties behind the `{` of an object.
    fn properties(&mut self, at: usize) -> Step {
        let mut next = at;
        while !self.is_sign(next, "}") {
            next = self.expect_identifier_name(next)?;
            next = self.expect(next, ":")?;
            next = self.assignment(next, true)?.0;
            if !self.is_sign(next, "}") {
                next = self.expect(next, ",")?;
            }
        }
        Ok(next + 1)
    }

    /// Expression, in which `in` is an operator, or ExpressionNoIn; and so those below.
    fn expression(&mut self, at: usize, within: bool) -> Operand {
        let start = self.records.len();
        let (mut next, mut target) = self.assignment(at, within)?;
        while self.is_sign(next, ",") {
            let sign = next;
            next = self.assignment(sign + 1, within)?.0;
            target = false;
            self.made(73, sign, start);
        }
        Ok((next, target))
    }

    /// AssignmentExpression and ConditionalExpression, which start alike.
    fn assignment(&mut self, at: usize, within: bool) -> Operand {
        let start = self.records.len();
        let (next, target) = self.binary(at, LOGICAL_OR, within)?;
        if self.is_sign(next, "?") {
            let (colon, _) = self.assignment(next + 1, true)?;
            let second = self.expect(colon, ":")?;
            let (end, _) = self.assignment(second, within)?;
            self.answers.push(self.marks[colon]);
            self.made(61, next, start);
            return Ok((end, false));
        }
        match self.class(next).and_then(assignment_kind) {
            Some(kind) if target => {
                let (end, _) = self.assignment(next + 1, within)?;
                self.made(kind, next, start);
                Ok((end, false))
            }
            _ => Ok((next, target)),
        }
    }

    /// The expressions from LogicalORExpression to MultiplicativeExpression, and UnaryExpression behind them. All group to the left.
    fn binary(&mut self, at: usize, level: u32, within: bool) -> Operand {
        if level > MULTIPLICATIVE {
            return self.unary(at);
        }
        let start = self.records.len();
        let (mut next, mut target) = self.binary(at, level + 1, within)?;
        while let Some((kind, _)) = self.class(next).and_then(binary_kind).filter(|(kind, found)| *found == level && (within || *kind != IN)) {
            let sign = next;
            next = self.binary(sign + 1, level + 1, within)?.0;
            target = false;
            self.made(kind, sign, start);
        }
        Ok((next, target))
    }

    /// UnaryExpression and PostfixExpression.
    fn unary(&mut self, at: usize) -> Operand {
        let start = self.records.len();
        if let Some(kind) = self.class(at).and_then(prefix_kind) {
            let (next, _) = self.unary(at + 1)?;
            self.made(kind, at, start);
            return Ok((next, false));
        }
        let next = self.left_hand_side(at)?;
        match self.class(next) {
            Some(Class::Sign(sign @ ("++" | "--"))) if !self.elements[next].line => {
                self.made(if sign == "++" { 29 } else { 30 }, next, start);
                Ok((next + 1, false))
            }
            _ => Ok((next, true)),
        }
    }

    /// LeftHandSideExpression: a MemberExpression with calls behind it, or a NewExpression.
    fn left_hand_side(&mut self, at: usize) -> Step {
        let start = self.records.len();
        let (mut next, whole) = self.member(at)?;
        while whole && self.is_sign(next, "(") {
            let group = next;
            next = self.arguments(group + 1)?;
            self.made(9, group, start);
            next = self.accesses(next, start)?;
        }
        Ok(next)
    }

    /// MemberExpression; or NewExpression, where the arguments of a `new` are missing, and then `false`.
    fn member(&mut self, at: usize) -> Operand {
        let start = self.records.len();
        let next = if self.class(at) == Some(Class::Word("new")) {
            let (group, whole) = self.member(at + 1)?;
            if !whole || !self.is_sign(group, "(") {
                self.made(28, at, start);
                return Ok((group, false));
            }
            let next = self.arguments(group + 1)?;
            self.made(27, at, start);
            next
        } else {
            self.primary(at)?
        };
        Ok((self.accesses(next, start)?, true))
    }

    /// A run of `[ Expression ]` and `. IdentifierName` behind what began when there were `start` records.
    fn accesses(&mut self, at: usize, start: usize) -> Step {
        let mut next = at;
        loop {
            match self.class(next) {
                Some(Class::Sign("[")) => {
                    let group = next;
                    next = self.expression(group + 1, true)?.0;
                    next = self.expect(next, "]")?;
                    self.made(22, group, start);
                }
                Some(Class::Sign(".")) => {
                    let name = next + 1;
                    next = self.expect_identifier_name(name)?;
                    self.made(8, name, start);
                }
                _ => return Ok(next),
            }
        }
    }

    fn primary(&mut self, at: usize) -> Step {
        let start = self.records.len();
        let leaf = match self.class(at) {
            Some(Class::Name) => 1,
            Some(Class::Number) => 2,
            Some(Class::Text) => 3,
            Some(Class::Pattern) => 4,
            Some(Class::Word("this")) => 23,
            Some(Class::Word("null")) => 24,
            Some(Class::Word("true")) => 25,
            Some(Class::Word("false")) => 26,
            Some(Class::Sign("{")) => {
                let next = self.properties(at + 1)?;
                self.made(5, at, start);
                return Ok(next);
            }
            Some(Class::Sign("[")) => {
                let next = self.array(at + 1)?;
                self.made(21, at, start);
                return Ok(next);
            }
            Some(Class::Sign("(")) => {
                let next = self.parenthesised(at)?;
                self.made(6, at, start);
                return Ok(next);
            }
            Some(Class::Word("function")) => {
                let named = self.class(at + 1) == Some(Class::Name);
                return self.function(at, at + 1 + usize::from(named), 7);
            }
            _ => return Err(at),
        };
        self.made(leaf, at, start);
        Ok(at + 1)
    }
}

/// The kind of the part of a word with `;` behind it.
fn bare_kind(word: &str) -> u32 {
    match word {
        "return" => 14,
        "continue" => 82,
        "break" => 84,
        _ => 94,
    }
}

const LOGICAL_OR: u32 = 1;
const MULTIPLICATIVE: u32 = 10;
const IN: u32 = 51;

/// The kind of a binary operator's part, and its level, LogicalORExpression's lowest.
fn binary_kind(class: Class) -> Option<(u32, u32)> {
    Some(match class {
        Class::Sign("||") => (60, LOGICAL_OR),
        Class::Sign("&&") => (59, 2),
        Class::Sign("|") => (58, 3),
        Class::Sign("^") => (57, 4),
        Class::Sign("&") => (56, 5),
        Class::Sign("==") => (52, 6),
        Class::Sign("!=") => (53, 6),
        Class::Sign("===") => (54, 6),
        Class::Sign("!==") => (55, 6),
        Class::Sign("<") => (46, 7),
        Class::Sign(">") => (47, 7),
        Class::Sign("<=") => (48, 7),
        Class::Sign(">=") => (49, 7),
        Class::Word("instanceof") => (50, 7),
        Class::Word("in") => (IN, 7),
        Class::Sign("<<") => (43, 8),
        Class::Sign(">>") => (44, 8),
        Class::Sign(">>>") => (45, 8),
        Class::Sign("+") => (11, 9),
        Class::Sign("-") => (42, 9),
        Class::Sign("*") => (40, MULTIPLICATIVE),
        Class::Sign("/") => (10, MULTIPLICATIVE),
        Class::Sign("%") => (41, MULTIPLICATIVE),
        _ => return None,
    })
}

/// The kind of the part of an operator that stands before its operand.
fn prefix_kind(class: Class) -> Option<u32> {
    Some(match class {
        Class::Word("delete") => 31,
        Class::Word("void") => 32,
        Class::Word("typeof") => 33,
        Class::Sign("++") => 34,
        Class::Sign("--") => 35,
        Class::Sign("+") => 36,
        Class::Sign("-") => 37,
        Class::Sign("~") => 38,
        Class::Sign("!") => 39,
        _ => return None,
    })
}

fn assignment_kind(class: Class) -> Option<u32> {
    Some(match class {
        Class::Sign("=") => 12,
        Class::Sign("*=") => 62,
        Class::Sign("/=") => 63,
        Class::Sign("%=") => 64,
        Class::Sign("+=") => 65,
        Class::Sign("-=") => 66,
        Class::Sign("<<=") => 67,
        Class::Sign(">>=") => 68,
        Class::Sign(">>>=") => 69,
        Class::Sign("&=") => 70,
        Class::Sign("^=") => 71,
        Class::Sign("|=") => 72,
        _ => return None,
    })
}
