//! Walks over the grammar: elements chosen at random, nearly all of them so that a program may begin with those so far.

use crate::elements::{Class, Element, SIGNS, WORDS};
use crate::syntax::syntax_tree;
use crate::texts::{spelled, Random};

/// Those that are no sign and no word.
const OTHERS: &[(&str, Class)] = &[("a", Class::Name), ("b", Class::Name), ("0x1", Class::Number), (".5", Class::Number), ("'s'", Class::Text), ("/r/g", Class::Pattern)];

/// What ends statements and groups.
const ENDS: &[(&str, Class)] = &[
    (";", Class::Sign(";")),
    (")", Class::Sign(")")),
    ("]", Class::Sign("]")),
    ("}", Class::Sign("}")),
    (":", Class::Sign(":")),
    ("a", Class::Name),
    ("while", Class::Word("while")),
    ("(", Class::Sign("(")),
    ("{", Class::Sign("{")),
    ("finally", Class::Word("finally")),
];

struct Walk {
    spellings: Vec<&'static str>,
    elements: Vec<Element>,
    same_line: Vec<usize>,
}

impl Walk {
    /// Adds an element, unless no program begins so, or anyway.
    fn add(&mut self, spelling: &'static str, class: Class, line: bool, anyway: bool) -> bool {
        let index = self.elements.len();
        self.elements.push(Element { class, first: 0, end: 0, line });
        let added = anyway || !syntax_tree(&self.elements).is_err_and(|place| place <= index);
        if added {
            self.spellings.push(spelling);
            if !line {
                self.same_line.push(index);
            }
        } else {
            self.elements.pop();
        }
        added
    }

    fn is_program(&self) -> bool {
        syntax_tree(&self.elements).is_ok()
    }
}

fn any(random: &mut Random) -> (&'static str, Class) {
    match random.below(8) {
        0..=2 => OTHERS[random.below(OTHERS.len())],
        3 | 4 => {
            let word = random.of(&WORDS);
            (word, if random.one_in(2) { Class::Word(word) } else { Class::WordAsName })
        }
        _ => {
            let sign = random.of(&SIGNS);
            (sign, Class::Sign(sign))
        }
    }
}

/// A walk of about so many elements, ended as a program where a few elements do it.
pub fn walk(random: &mut Random, size: usize) -> Vec<u8> {
    let mut walk = Walk { spellings: Vec::new(), elements: Vec::new(), same_line: Vec::new() };
    for _ in 0..20 * size {
        if walk.elements.len() >= size {
            break;
        }
        let (spelling, class) = any(random);
        let (line, anyway) = (random.one_in(8), random.one_in(400));
        walk.add(spelling, class, line, anyway);
    }
    for _ in 0..size {
        if walk.is_program() {
            break;
        }
        let _ = ENDS.iter().any(|&(spelling, class)| walk.add(spelling, class, false, false));
    }
    spelled(random, &walk.spellings, &walk.same_line)
}
