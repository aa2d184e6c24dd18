//! The grammar as rules: the expressions of ES5.1 chapter 11 and the statements of its chapter 12 that README has, as those
//! write them; and a recogniser that keeps every way in which the elements so far can be the beginning of a program (Earley's). So `first element with which the elements so far begin no program` is
//! found by its definition.

use crate::elements::{Class, Element};
use std::collections::HashMap;

#[derive(Clone, Copy, PartialEq, Eq, Debug)]
enum Symbol {
    Element(Class),
    Part(usize),
    /// No line end before the next element.
    SameLine,
    /// The next element is neither `{` nor `function`.
    StartsNoDeclaration,
    /// The next element is no `else`.
    NoElse,
}

/// A part, and its forms; an empty form is written as `<nothing>`.
const RULES: &[(&str, &[&str])] = &[
    ("Program", &["Body"]),
    ("Body", &["<nothing>", "Body Statement", "Body Declaration"]),
    ("Statements", &["<nothing>", "Statements Statement"]),
    (
        "Statement",
        &[
            "Block",
            "var Variables ;",
            ";",
            "<starts-no-declaration> Expression ;",
            "if ( Expression ) Statement else Statement",
            "if ( Expression ) Statement <no-else>",
            "do Statement while ( Expression ) ;",
            "while ( Expression ) Statement",
            "for ( OptionalExpressionNoIn ; OptionalExpression ; OptionalExpression ) Statement",
            "for ( var VariablesNoIn ; OptionalExpression ; OptionalExpression ) Statement",
            "for ( LeftHandSideExpression in Expression ) Statement",
            "for ( var VariableNoIn in Expression ) Statement",
            "continue ;",
            "continue <same-line> name ;",
            "break ;",
            "break <same-line> name ;",
            "return ;",
            "return <same-line> Expression ;",
            "with ( Expression ) Statement",
            "switch ( Expression ) { Clauses }",
            "switch ( Expression ) { Clauses DefaultClause Clauses }",
            "name : Statement",
            "throw <same-line> Expression ;",
            "try Block Catch",
            "try Block Finally",
            "try Block Catch Finally",
            "debugger ;",
        ],
    ),
    ("Block", &["{ Statements }"]),
    ("Variables", &["Variable", "Variables , Variable"]),
    ("VariablesNoIn", &["VariableNoIn", "VariablesNoIn , VariableNoIn"]),
    ("Variable", &["name", "name = AssignmentExpression"]),
    ("VariableNoIn", &["name", "name = AssignmentExpressionNoIn"]),
    ("OptionalExpression", &["<nothing>", "Expression"]),
    ("OptionalExpressionNoIn", &["<nothing>", "ExpressionNoIn"]),
    ("Clauses", &["<nothing>", "Clauses Clause"]),
    ("Clause", &["case Expression : Statements"]),
    ("DefaultClause", &["default : Statements"]),
    ("Catch", &["catch ( name ) Block"]),
    ("Finally", &["finally Block"]),
    ("Declaration", &["function name Function"]),
    ("Function", &["( ) { Body }", "( Names ) { Body }"]),
    ("Names", &["name", "Names , name"]),
    ("PrimaryExpression", &["this", "name", "Literal", "Array", "Object", "( Expression )"]),
    ("Literal", &["null", "true", "false", "number", "string", "pattern"]),
    ("Array", &["[ Elision ]", "[ Elements ]", "[ Elements , Elision ]"]),
    ("Elements", &["Elision AssignmentExpression", "Elements , Elision AssignmentExpression"]),
    ("Elision", &["<nothing>", "Elision ,"]),
    ("Object", &["{ }", "{ Properties }", "{ Properties , }"]),
    ("Properties", &["Property", "Properties , Property"]),
    ("Property", &["IdentifierName : AssignmentExpression"]),
    ("IdentifierName", &["name", "word"]),
    ("FunctionExpression", &["function name Function", "function Function"]),
    (
        "MemberExpression",
        &["PrimaryExpression", "FunctionExpression", "MemberExpression [ Expression ]", "MemberExpression . IdentifierName", "new MemberExpression Arguments"],
    ),
    ("NewExpression", &["MemberExpression", "new NewExpression"]),
    (
        "CallExpression",
        &["MemberExpression Arguments", "CallExpression Arguments", "CallExpression [ Expression ]", "CallExpression . IdentifierName"],
    ),
    ("Arguments", &["( )", "( ArgumentList )"]),
    ("ArgumentList", &["AssignmentExpression", "ArgumentList , AssignmentExpression"]),
    ("LeftHandSideExpression", &["NewExpression", "CallExpression"]),
    (
        "PostfixExpression",
        &["LeftHandSideExpression", "LeftHandSideExpression <same-line> ++", "LeftHandSideExpression <same-line> --"],
    ),
    (
        "UnaryExpression",
        &[
            "PostfixExpression",
            "delete UnaryExpression",
            "void UnaryExpression",
            "typeof UnaryExpression",
            "++ UnaryExpression",
            "-- UnaryExpression",
            "+ UnaryExpression",
            "- UnaryExpression",
            "~ UnaryExpression",
            "! UnaryExpression",
        ],
    ),
    (
        "MultiplicativeExpression",
        &[
            "UnaryExpression",
            "MultiplicativeExpression * UnaryExpression",
            "MultiplicativeExpression / UnaryExpression",
            "MultiplicativeExpression % UnaryExpression",
        ],
    ),
    (
        "AdditiveExpression",
        &["MultiplicativeExpression", "AdditiveExpression + MultiplicativeExpression", "AdditiveExpression - MultiplicativeExpression"],
    ),
    (
        "ShiftExpression",
        &["AdditiveExpression", "ShiftExpression << AdditiveExpression", "ShiftExpression >> AdditiveExpression", "ShiftExpression >>> AdditiveExpression"],
    ),
    (
        "RelationalExpression",
        &[
            "ShiftExpression",
            "RelationalExpression < ShiftExpression",
            "RelationalExpression > ShiftExpression",
            "RelationalExpression <= ShiftExpression",
            "RelationalExpression >= ShiftExpression",
            "RelationalExpression instanceof ShiftExpression",
            "RelationalExpression in ShiftExpression",
        ],
    ),
    (
        "RelationalExpressionNoIn",
        &[
            "ShiftExpression",
            "RelationalExpressionNoIn < ShiftExpression",
            "RelationalExpressionNoIn > ShiftExpression",
            "RelationalExpressionNoIn <= ShiftExpression",
            "RelationalExpressionNoIn >= ShiftExpression",
            "RelationalExpressionNoIn instanceof ShiftExpression",
        ],
    ),
    (
        "EqualityExpression",
        &[
            "RelationalExpression",
            "EqualityExpression == RelationalExpression",
            "EqualityExpression != RelationalExpression",
            "EqualityExpression === RelationalExpression",
            "EqualityExpression !== RelationalExpression",
        ],
    ),
    (
        "EqualityExpressionNoIn",
        &[
            "RelationalExpressionNoIn",
            "EqualityExpressionNoIn == RelationalExpressionNoIn",
            "EqualityExpressionNoIn != RelationalExpressionNoIn",
            "EqualityExpressionNoIn === RelationalExpressionNoIn",
            "EqualityExpressionNoIn !== RelationalExpressionNoIn",
        ],
    ),
    ("BitwiseANDExpression", &["EqualityExpression", "BitwiseANDExpression & EqualityExpression"]),
    ("BitwiseANDExpressionNoIn", &["EqualityExpressionNoIn", "BitwiseANDExpressionNoIn & EqualityExpressionNoIn"]),
    ("BitwiseXORExpression", &["BitwiseANDExpression", "BitwiseXORExpression ^ BitwiseANDExpression"]),
    ("BitwiseXORExpressionNoIn", &["BitwiseANDExpressionNoIn", "BitwiseXORExpressionNoIn ^ BitwiseANDExpressionNoIn"]),
    ("BitwiseORExpression", &["BitwiseXORExpression", "BitwiseORExpression | BitwiseXORExpression"]),
    ("BitwiseORExpressionNoIn", &["BitwiseXORExpressionNoIn", "BitwiseORExpressionNoIn | BitwiseXORExpressionNoIn"]),
    ("LogicalANDExpression", &["BitwiseORExpression", "LogicalANDExpression && BitwiseORExpression"]),
    ("LogicalANDExpressionNoIn", &["BitwiseORExpressionNoIn", "LogicalANDExpressionNoIn && BitwiseORExpressionNoIn"]),
    ("LogicalORExpression", &["LogicalANDExpression", "LogicalORExpression || LogicalANDExpression"]),
    ("LogicalORExpressionNoIn", &["LogicalANDExpressionNoIn", "LogicalORExpressionNoIn || LogicalANDExpressionNoIn"]),
    ("ConditionalExpression", &["LogicalORExpression", "LogicalORExpression ? AssignmentExpression : AssignmentExpression"]),
    ("ConditionalExpressionNoIn", &["LogicalORExpressionNoIn", "LogicalORExpressionNoIn ? AssignmentExpression : AssignmentExpressionNoIn"]),
    ("AssignmentExpression", &["ConditionalExpression", "LeftHandSideExpression AssignmentOperator AssignmentExpression"]),
    ("AssignmentExpressionNoIn", &["ConditionalExpressionNoIn", "LeftHandSideExpression AssignmentOperator AssignmentExpressionNoIn"]),
    ("AssignmentOperator", &["=", "*=", "/=", "%=", "+=", "-=", "<<=", ">>=", ">>>=", "&=", "^=", "|="]),
    ("Expression", &["AssignmentExpression", "Expression , AssignmentExpression"]),
    ("ExpressionNoIn", &["AssignmentExpressionNoIn", "ExpressionNoIn , AssignmentExpressionNoIn"]),
];

struct Rule {
    part: usize,
    symbols: Vec<Symbol>,
}

pub struct Grammar {
    rules: Vec<Rule>,
    /// Rules of each part, and whether the part may be empty.
    of_part: Vec<Vec<usize>>,
    empty: Vec<bool>,
    /// State number of each rule's start: a state is a rule with a dot in it.
    start: Vec<usize>,
    /// Rule and dot of each state.
    states: Vec<(usize, usize)>,
}

#[derive(Clone, Copy)]
struct Item {
    state: usize,
    origin: usize,
}

pub enum Verdict {
    Program,
    /// All elements begin a program, but they are none.
    Beginning,
    /// Index of the first element with which the elements so far begin no program.
    Dead(usize),
}

fn symbol(word: &'static str, parts: &HashMap<&str, usize>) -> Symbol {
    match word {
        "<same-line>" => Symbol::SameLine,
        "<starts-no-declaration>" => Symbol::StartsNoDeclaration,
        "<no-else>" => Symbol::NoElse,
        "name" => Symbol::Element(Class::Name),
        "word" => Symbol::Element(Class::WordAsName),
        "number" => Symbol::Element(Class::Number),
        "string" => Symbol::Element(Class::Text),
        "pattern" => Symbol::Element(Class::Pattern),
        _ if parts.contains_key(word) => Symbol::Part(parts[word]),
        _ if word.as_bytes()[0].is_ascii_lowercase() => Symbol::Element(Class::Word(word)),
        _ => Symbol::Element(Class::Sign(word)),
    }
}

impl Grammar {
    pub fn new() -> Self {
        let parts: HashMap<&str, usize> = RULES.iter().enumerate().map(|(index, (part, _))| (*part, index)).collect();
        let mut rules = Vec::new();
        for (part, forms) in RULES {
            for form in *forms {
                let words = form.split(' ').filter(|word| *word != "<nothing>");
                rules.push(Rule { part: parts[part], symbols: words.map(|word| symbol(word, &parts)).collect() });
            }
        }
        let mut of_part = vec![Vec::new(); parts.len()];
        let mut empty = vec![false; parts.len()];
        let mut start = Vec::new();
        let mut states = Vec::new();
        for (index, rule) in rules.iter().enumerate() {
            of_part[rule.part].push(index);
            empty[rule.part] |= rule.symbols.is_empty();
            start.push(states.len());
            states.extend((0..=rule.symbols.len()).map(|dot| (index, dot)));
        }
        // `Program: Body` is empty where `Body` is; nothing else has only parts that may be empty.
        empty[rules[0].part] = true;
        Grammar { rules, of_part, empty, start, states }
    }

    fn next(&self, state: usize) -> Option<Symbol> {
        let (rule, dot) = self.states[state];
        self.rules[rule].symbols.get(dot).copied()
    }

    /// Runs all ways at once over the elements.
    pub fn verdict(&self, elements: &[Element]) -> Verdict {
        let width = elements.len() + 1;
        let mut seen = vec![0u32; self.states.len() * width];
        // The items of each set that wait for a part, by part.
        let mut waiting: Vec<Vec<(usize, Item)>> = Vec::with_capacity(width);
        let mut current: Vec<Item> = Vec::new();
        let program = self.rules[0].part;
        for &rule in &self.of_part[program] {
            current.push(Item { state: self.start[rule], origin: 0 });
        }
        for at in 0..width {
            let stamp = at as u32 + 1;
            for item in &current {
                seen[item.state * width + item.origin] = stamp;
            }
            let next_element = elements.get(at);
            let mut predicted = vec![false; self.of_part.len()];
            let mut wait: Vec<(usize, Item)> = Vec::new();
            let mut done = 0;
            while done < current.len() {
                let item = current[done];
                done += 1;
                let mut add = |current: &mut Vec<Item>, state: usize, origin: usize| {
                    let cell = &mut seen[state * width + origin];
                    if *cell != stamp {
                        *cell = stamp;
                        current.push(Item { state, origin });
                    }
                };
                match self.next(item.state) {
                    Some(Symbol::Element(_)) => {}
                    Some(symbol @ (Symbol::SameLine | Symbol::StartsNoDeclaration | Symbol::NoElse)) => {
                        if allowed(symbol, next_element) {
                            add(&mut current, item.state + 1, item.origin);
                        }
                    }
                    Some(Symbol::Part(part)) => {
                        wait.push((part, item));
                        if !std::mem::replace(&mut predicted[part], true) {
                            for &rule in &self.of_part[part] {
                                add(&mut current, self.start[rule], at);
                            }
                        }
                        if self.empty[part] {
                            add(&mut current, item.state + 1, item.origin);
                        }
                    }
                    // What is empty is passed over where it is waited for.
                    None if item.origin == at => {}
                    None => {
                        let part = self.rules[self.states[item.state].0].part;
                        let from = waiting[item.origin].partition_point(|other| other.0 < part);
                        for (_, other) in waiting[item.origin][from..].iter().take_while(|other| other.0 == part) {
                            add(&mut current, other.state + 1, other.origin);
                        }
                    }
                }
            }
            let Some(element) = next_element else {
                let whole = |item: &Item| item.origin == 0 && self.next(item.state).is_none() && self.rules[self.states[item.state].0].part == program;
                return if current.iter().any(whole) { Verdict::Program } else { Verdict::Beginning };
            };
            let taken: Vec<Item> = current
                .iter()
                .filter(|item| self.next(item.state) == Some(Symbol::Element(element.class)))
                .map(|item| Item { state: item.state + 1, origin: item.origin })
                .collect();
            if taken.is_empty() {
                return Verdict::Dead(at);
            }
            wait.sort_by_key(|(part, _)| *part);
            waiting.push(wait);
            current = taken;
        }
        unreachable!("the last round returns")
    }

    /// In how many ways the rules lead from a program to these elements.
    pub fn derivations(&self, elements: &[Element]) -> u64 {
        Ways { grammar: self, elements, known: HashMap::new() }.of_part(self.rules[0].part, 0, elements.len())
    }
}

fn allowed(condition: Symbol, next: Option<&Element>) -> bool {
    match condition {
        Symbol::SameLine => next.is_none_or(|element| !element.line),
        Symbol::NoElse => next.is_none_or(|element| element.class != Class::Word("else")),
        _ => next.is_none_or(|element| !matches!(element.class, Class::Sign("{") | Class::Word("function"))),
    }
}

/// Counts the ways in which parts, and the beginnings of rules, are the elements from one place to before another.
struct Ways<'a> {
    grammar: &'a Grammar,
    elements: &'a [Element],
    known: HashMap<(usize, usize, usize), u64>,
}

impl Ways<'_> {
    fn may_be_empty(&self, symbol: Symbol) -> bool {
        match symbol {
            Symbol::Element(_) => false,
            Symbol::Part(part) => self.grammar.empty[part],
            Symbol::SameLine | Symbol::StartsNoDeclaration | Symbol::NoElse => true,
        }
    }

    fn of_part(&mut self, part: usize, from: usize, to: usize) -> u64 {
        if from == to && !self.grammar.empty[part] {
            return 0;
        }
        let grammar = self.grammar;
        grammar.of_part[part].iter().map(|&rule| self.of_state(grammar.start[rule] + grammar.rules[rule].symbols.len(), from, to)).sum()
    }

    /// Of a rule's symbols before the dot.
    fn of_state(&mut self, state: usize, from: usize, to: usize) -> u64 {
        let (rule, dot) = self.grammar.states[state];
        if dot == 0 {
            return u64::from(from == to);
        }
        if let Some(&count) = self.known.get(&(state, from, to)) {
            return count;
        }
        let count = match self.grammar.rules[rule].symbols[dot - 1] {
            Symbol::Element(class) if to > from && self.elements[to - 1].class == class => self.of_state(state - 1, from, to - 1),
            Symbol::Element(_) => 0,
            Symbol::Part(part) => {
                // What is not empty has an element, so that what stands on the other side of it is shorter.
                let first = from + self.grammar.rules[rule].symbols[..dot - 1].iter().filter(|symbol| !self.may_be_empty(**symbol)).count();
                let end = if self.grammar.empty[part] { to + 1 } else { to };
                let mut sum = 0;
                for middle in first..end {
                    let right = self.of_part(part, middle, to);
                    if right > 0 {
                        sum += right * self.of_state(state - 1, from, middle);
                    }
                }
                sum
            }
            condition if allowed(condition, self.elements.get(to)) => self.of_state(state - 1, from, to),
            _ => 0,
        };
        self.known.insert((state, from, to), count);
        count
    }
}
