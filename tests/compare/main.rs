//! Compares the static library's calls, and the yardstick's, with an implementation of its own of the elements, the prefix rule and the grammar, cell by cell, over many
//! texts.

mod elements;
mod grammar;
mod reading;
mod syntax;
mod texts;
mod walks;
#[path = "../../docs/src/reader.rs"]
mod yardstick;
#[path = "../../docs/src/parser.rs"]
mod yardstick_parser;

use elements::{element, gap, slash_met, Element, Fault};
use grammar::{Grammar, Verdict};
use reading::{reading, respaced, Reading};
use std::process::ExitCode;
use texts::Random;

#[cfg(any(read, respace, parse))]
extern "C" {
    #[cfg(read)]
    fn buldrekso_read(text: *const u8, text_len: usize, trees: *mut u32, trees_len: usize) -> u64;
    #[cfg(respace)]
    fn buldrekso_respace(text: *const u8, text_len: usize, output: *mut u8, output_len: usize) -> u64;
    #[cfg(parse)]
    fn buldrekso_parse(text: *const u8, text_len: usize, trees: *mut u32, trees_len: usize, syntax: *mut u32, syntax_len: usize) -> u64;
}

const MOST_SYNTAX: usize = 16_385;
/// Up to so many elements the recogniser decides where a text begins no program; past it, the descent alone.
const RECOGNISED: usize = 3_000;
/// Up to so many elements the derivations of a program are counted.
const COUNTED: usize = 24;
/// Cells behind each lent slice, which no call may touch.
const GUARD: usize = 8;
/// Stack with which every text parses.
const LITTLE_STACK: usize = 256 * 1024;

type Answer = Result<usize, Fault>;

fn packed(answer: Answer) -> u64 {
    match answer {
        Ok(count) => count as u64,
        Err((number, place)) => (u64::from(number) << 32) | place as u64,
    }
}

fn shown(answer: u64) -> String {
    match answer >> 32 {
        0 => format!("accepted {answer}"),
        number => format!("refused {number} at {}", answer & 0xffff_ffff),
    }
}

/// What cells hold after a call: the written ones and then the old ones, or zeros; behind them the guard.
fn after<T: Copy + Default>(before: &[T], lent: usize, written: Option<&[T]>) -> Vec<T> {
    let mut cells = before.to_vec();
    match written {
        Some(written) => cells[..written.len()].copy_from_slice(written),
        None => cells[..lent].fill(T::default()),
    }
    cells
}

/// Parses with the first cells of each table lent.
#[cfg(parse)]
fn parse(text: &[u8], trees: &mut [u32], lent: usize, syntax: &mut [u32], lent_syntax: usize) -> u64 {
    unsafe { buldrekso_parse(text.as_ptr(), text.len(), trees.as_mut_ptr(), lent, syntax.as_mut_ptr(), lent_syntax) }
}

/// The same in a thread with little stack; one that runs out of it ends the program by a signal.
#[cfg(parse)]
fn parse_in_little_stack(text: &[u8], trees: &mut [u32], lent: usize, syntax: &mut [u32], lent_syntax: usize) -> u64 {
    std::thread::scope(|scope| {
        let run = std::thread::Builder::new().stack_size(LITTLE_STACK).spawn_scoped(scope, || parse(text, trees, lent, syntax, lent_syntax));
        run.expect("a thread").join().expect("an answer")
    })
}

#[cfg(parse)]
type Parse = fn(&[u8], &mut [u32], usize, &mut [u32], usize) -> u64;

struct Comparison {
    grammar: Grammar,
    random: Random,
    texts: u64,
    programs: u64,
    calls: u64,
    differences: u64,
}

impl Comparison {
    fn difference(&mut self, text: &[u8], what: &str) {
        self.differences += 1;
        if self.differences <= 20 {
            let start = String::from_utf8_lossy(&text[..text.len().min(300)]).into_owned();
            println!("difference,{what}\n    text of {} bytes: {start:?}", text.len());
        }
    }

    fn garbage(&mut self, lent: usize) -> Vec<u32> {
        let seed = self.random.next();
        (0..lent + GUARD).map(|index| (seed as u32).wrapping_mul(index as u32 | 1) | 0x100).collect()
    }

    fn garbage_bytes(&mut self, lent: usize) -> Vec<u8> {
        let seed = self.random.next();
        (0..lent + GUARD).map(|index| (seed as u8).wrapping_mul(index as u8 | 1) | 0x80).collect()
    }

    fn read(&mut self, text: &[u8], lent: usize) {
        self.calls += 1;
        let expected = reading(text, lent / 5);
        let before = self.garbage(lent);
        let written = expected.as_ref().ok().map(|reading| reading.trees.concat());
        let answer = packed(expected.map(|reading| reading.trees.len()));
        let right = after(&before, lent, written.as_deref());
        // The call asks nothing of its caller; the slices say what it may touch.
        #[cfg(read)]
        let library: fn(&[u8], &mut [u32]) -> u64 = |text, cells| unsafe { buldrekso_read(text.as_ptr(), text.len(), cells.as_mut_ptr(), cells.len()) };
        let readers: &[(&str, fn(&[u8], &mut [u32]) -> u64)] = &[
            #[cfg(read)]
            ("read", library),
            ("the yardstick's read", yardstick::read),
        ];
        for (name, read) in readers {
            let mut cells = before.clone();
            let got = read(text, &mut cells[..lent]);
            if got != answer || cells != right {
                self.difference(text, &format!("{name} with {lent} cells: expected {}, got {}; {}", shown(answer), shown(got), first(&right, &cells)));
            }
        }
    }

    #[cfg(respace)]
    fn respace(&mut self, text: &[u8], lent: usize) {
        self.calls += 1;
        let output = reading(text, usize::MAX).map(|reading| respaced(text, &reading.elements));
        let expected = match output {
            Ok(output) if output.len() > lent => Err((15, text.len())),
            other => other,
        };
        let before = self.garbage_bytes(lent);
        let mut cells = before.clone();
        let got = unsafe { buldrekso_respace(text.as_ptr(), text.len(), cells.as_mut_ptr(), lent) };
        let answer = packed(expected.as_ref().map(Vec::len).map_err(|fault| *fault));
        let right = after(&before, lent, expected.as_deref().ok());
        if got != answer || cells != right {
            self.difference(text, &format!("respace with {lent} bytes: expected {}, got {}; {}", shown(answer), shown(got), first(&right, &cells)));
        }
    }

    #[cfg(parse)]
    fn parse(&mut self, call: Parse, text: &[u8], syntax: &Result<Vec<[u32; 3]>, usize>, lent: usize, lent_syntax: usize) {
        self.calls += 1;
        let expected: Result<(Vec<u32>, Vec<u32>), Fault> = reading(text, lent / 5).and_then(|reading| match syntax {
            Err(place) => Err((13, *place)),
            Ok(records) if records.len() > (lent_syntax / 3).min(MOST_SYNTAX) => Err((14, text.len())),
            Ok(records) => Ok((reading.trees.concat(), records.concat())),
        });
        let (before, before_syntax) = (self.garbage(lent), self.garbage(lent_syntax));
        let answer = packed(expected.as_ref().map(|(_, syntax)| syntax.len() / 3).map_err(|fault| *fault));
        let right = after(&before, lent, expected.as_ref().ok().map(|(trees, _)| &trees[..]));
        let right_syntax = after(&before_syntax, lent_syntax, expected.as_ref().ok().map(|(_, syntax)| &syntax[..]));
        let yardstick: Parse = |text, trees, lent, syntax, lent_syntax| yardstick_parser::parse(text, &mut trees[..lent], &mut syntax[..lent_syntax]);
        for (name, parse) in [("parse", call), ("the yardstick's parse", yardstick)] {
            let (mut cells, mut cells_syntax) = (before.clone(), before_syntax.clone());
            let got = parse(text, &mut cells, lent, &mut cells_syntax, lent_syntax);
            if got != answer || cells != right || cells_syntax != right_syntax {
                let what = format!(
                    "{name} with {lent} and {lent_syntax} cells: expected {}, got {}; trees {}; syntax {}",
                    shown(answer),
                    shown(got),
                    first(&right, &cells),
                    first(&right_syntax, &cells_syntax)
                );
                self.difference(text, &what);
            }
        }
    }

    /// Syntax records of a reading, or the place where its elements begin no program.
    fn syntax(&mut self, text: &[u8], elements: &[Element]) -> Result<Vec<[u32; 3]>, usize> {
        let descent = syntax::syntax_tree(elements);
        let place = |index: usize| elements.get(index).map_or(text.len(), |element| element.first);
        if elements.len() > RECOGNISED {
            return descent.map(|tree| tree.records).map_err(place);
        }
        let recognised = match self.grammar.verdict(elements) {
            Verdict::Program => None,
            Verdict::Beginning => Some(elements.len()),
            Verdict::Dead(index) => Some(index),
        };
        if descent.as_ref().err().copied() != recognised {
            self.difference(text, &format!("the comparison's own: descent {:?}, recogniser {recognised:?}", descent.as_ref().err()));
        }
        descent.map(|tree| tree.records).map_err(place)
    }

    /// A program's kinds of trees are those that its derivation has, which is the only one, and no two records share a mark.
    fn kinds(&mut self, text: &[u8], reading: &Reading) {
        let Ok(syntax::Tree { records, answers }) = syntax::syntax_tree(&reading.elements) else {
            return;
        };
        let mut marked = vec![0; reading.trees.len() + 1];
        for &[kind, mark, _] in &records {
            if std::mem::replace(&mut marked[mark as usize], kind) != 0 {
                self.difference(text, &format!("the comparison's own: two records share the mark {mark}"));
            }
        }
        for (index, tree) in reading.trees.iter().enumerate() {
            let right = match (tree[0], marked[index]) {
                (reading::OBJECT, kind) => kind == 5,
                (reading::BEFORE, kind) => kind == 34 || kind == 35,
                (reading::AFTER, kind) => kind == 29 || kind == 30,
                (reading::ANSWER, kind) => kind == 0 && answers.contains(&(index as u32)),
                (_, kind) => !matches!(kind, 5 | 29 | 30 | 34 | 35) && !answers.contains(&(index as u32)),
            };
            if !right {
                self.difference(text, &format!("the comparison's own: the tree {index} has another kind in the derivation"));
            }
        }
        if reading.elements.len() <= COUNTED && self.grammar.derivations(&reading.elements) != 1 {
            self.difference(text, "the comparison's own: a program has more than one derivation");
        }
    }

    /// The choices with which the text is a program: none, or the reading's alone.
    fn agreement(&mut self, text: &[u8], read: &Result<Reading, Fault>, program: bool) {
        let mut found: Vec<Vec<Element>> = Vec::new();
        self.choices(text, 0, &mut Vec::new(), &mut found);
        let right = match read {
            Ok(reading) if program => found.len() == 1 && found[0] == reading.elements,
            Err((9 | 12, _)) => true,
            _ => found.is_empty(),
        };
        if !right {
            self.difference(text, &format!("the comparison's own: {} choices give a program", found.len()));
        }
    }

    fn choices(&self, text: &[u8], from: usize, so_far: &mut Vec<Element>, found: &mut Vec<Vec<Element>>) {
        let Ok((at, line)) = gap(text, from) else {
            return;
        };
        if at == text.len() {
            if let Verdict::Program = self.grammar.verdict(so_far) {
                found.push(so_far.clone());
            }
            return;
        }
        let patterns: &[bool] = if slash_met(text, at) { &[false, true] } else { &[false] };
        let cut = patterns.iter().filter_map(|&pattern| element(text, at, line, pattern).ok());
        let answers: Vec<Element> = cut.flat_map(Element::readings).collect();
        for &next in &answers {
            so_far.push(next);
            // What begins no program comes to none, whatever is chosen later.
            if answers.len() == 1 || !matches!(self.grammar.verdict(so_far), Verdict::Dead(_)) {
                self.choices(text, next.end, so_far, found);
            }
            so_far.pop();
        }
    }

    /// Compares all calls over a text, with lent cells of several lengths around what is needed.
    fn text(&mut self, text: &[u8], thorough: bool) {
        self.texts += 1;
        let read = reading(text, usize::MAX);
        let needed = match &read {
            Ok(reading) => 5 * reading.trees.len(),
            Err((1, _)) => 20,
            Err(_) => 5 * text.len().min(reading::MOST_TREES + 1),
        };
        let syntax = match &read {
            Ok(reading) => self.syntax(text, &reading.elements),
            Err(_) => Err(0),
        };
        let is_program = read.is_ok() && syntax.is_ok();
        self.programs += u64::from(is_program);
        if let (Ok(reading), true) = (&read, is_program) {
            self.kinds(text, reading);
        }
        if text.len() < 200 && text.iter().filter(|&&byte| byte == b'/').count() <= 8 {
            self.agreement(text, &read, is_program);
        }
        let lengths: Vec<usize> = match thorough {
            true => (0..=needed + 6).collect(),
            false => {
                let around = [needed, needed.saturating_sub(1), needed + 1 + self.random.below(9)];
                let shorter = if read.is_err() { Some(self.random.below(needed + 1)) } else { None };
                around.into_iter().chain(shorter).collect()
            }
        };
        for &lent in &lengths {
            self.read(text, lent);
        }
        #[cfg(respace)]
        {
            let bytes = read.as_ref().map_or(text.len(), |reading| respaced(text, &reading.elements).len());
            let short = bytes.saturating_sub(1 + self.random.below(3));
            let over = bytes + self.random.below(9);
            let outputs: Vec<usize> = if thorough { (0..=bytes + 3).collect() } else { vec![bytes, short, over] };
            for lent in outputs {
                self.respace(text, lent);
            }
        }
        #[cfg(parse)]
        {
            let records = 3 * syntax.as_ref().map_or(needed / 5 + 1, Vec::len);
            let (more, less) = (self.random.below(9), 1 + self.random.below(7));
            self.parse(parse, text, &syntax, needed, records);
            self.parse(parse, text, &syntax, needed, records.saturating_sub(1));
            self.parse(parse, text, &syntax, needed.saturating_sub(1), records + more);
            self.parse(parse, text, &syntax, needed + more, records.saturating_sub(less));
            if thorough {
                for lent_syntax in 0..=records + 4 {
                    self.parse(parse, text, &syntax, needed + less, lent_syntax);
                }
                for lent in lengths {
                    self.parse(parse, text, &syntax, lent, records + more);
                }
            }
        }
    }

    /// Every text of at most so many bytes over each of the small alphabets.
    fn short_texts(&mut self) {
        for (bytes, most) in texts::ALPHABETS {
            for count in 0..=*most {
                for number in 0..bytes.len().pow(count as u32) {
                    let text: Vec<u8> = digits(number, count, bytes.len()).map(|digit| bytes.as_bytes()[digit]).collect();
                    self.text(&text, false);
                }
            }
        }
    }

    /// Every sequence of at most so many pieces, joined directly and by a blank.
    fn sequences(&mut self, pieces: &[&str], most: usize) {
        for count in 0..=most {
            for number in 0..pieces.len().pow(count as u32) {
                let chosen: Vec<&str> = digits(number, count, pieces.len()).map(|digit| pieces[digit]).collect();
                self.text(chosen.concat().as_bytes(), count <= 2);
                if count > 1 {
                    self.text(chosen.join(" ").as_bytes(), false);
                }
            }
        }
    }

    /// The same between two texts, joined directly.
    fn sequences_within(&mut self, before: &str, pieces: &[&str], most: usize, after: &str) {
        for count in 0..=most {
            for number in 0..pieces.len().pow(count as u32) {
                let chosen: String = digits(number, count, pieces.len()).map(|digit| pieces[digit]).collect();
                self.text([before, &chosen, after].concat().as_bytes(), count <= 1);
            }
        }
    }

    fn walks(&mut self, number: usize) {
        for _ in 0..number {
            let size = 1 + self.random.below(30);
            let mut text = walks::walk(&mut self.random, size);
            self.text(&text, false);
            texts::damage(&mut self.random, &mut text);
            self.text(&text, false);
        }
    }

    fn random_texts(&mut self, number: usize) {
        for index in 0..number {
            let thorough = index % 64 == 0;
            let size = 1 + self.random.below(if index % 16 == 0 { 200 } else { 40 });
            let mut text = match index % 8 {
                0 => texts::bytes(&mut self.random, size),
                1 | 2 => texts::pieces(&mut self.random, size.min(30)),
                _ => texts::program(&mut self.random, size),
            };
            if index % 8 > 2 {
                let programs = self.programs;
                self.text(&text, thorough && size < 40);
                if self.programs == programs {
                    self.difference(&text, "the comparison's own: a text made as a program is none");
                }
                let times = 1 + self.random.below(3);
                for _ in 0..times {
                    texts::damage(&mut self.random, &mut text);
                }
            }
            self.text(&text, thorough && size < 40);
        }
    }

    /// Long programs and their damage.
    fn long_texts(&mut self, number: usize) {
        for _ in 0..number {
            let size = 500 + self.random.below(4000);
            let mut text = texts::program(&mut self.random, size);
            self.text(&text, false);
            texts::damage(&mut self.random, &mut text);
            self.text(&text, false);
        }
    }

    fn limits(&mut self) {
        for text in texts::limits() {
            self.text(&text, false);
        }
    }

    fn tables(&mut self) {
        for text in [texts::words_after_dots(), texts::words_in_braces(), texts::operators(), texts::neighbours()].concat() {
            self.text(&text, false);
        }
    }

    /// The implementation here against readings whose answers are known.
    fn readings(&mut self) {
        type Case = (&'static str, Answer, Answer);
        let cases: &[Case] = &[
            ("", Ok(0), Ok(1)),
            ("/a/;", Ok(2), Ok(3)),
            ("a/b/c;", Ok(6), Ok(7)),
            ("{}/a/;", Ok(3), Ok(4)),
            ("x={}/a/b;", Ok(8), Ok(9)),
            ("if(a)/b/;", Ok(5), Ok(5)),
            ("f(a)/b/c;", Ok(8), Ok(9)),
            ("function f(x){}/a/;", Ok(7), Ok(4)),
            ("y=function f(x){}/a/b;", Ok(12), Ok(9)),
            ("x:{}/a/;", Ok(5), Ok(5)),
            ("y={x:{}/a/b};", Ok(11), Ok(10)),
            ("return{}/a/b;", Ok(7), Ok(7)),
            ("return\n{}/a/;", Ok(4), Err((13, 7))),
            ("a=/[/]/;", Ok(4), Ok(5)),
            ("a/)/;", Err((10, 2)), Err((10, 2))),
            ("a=/=/;", Ok(4), Ok(5)),
            ("a/=b;", Ok(4), Ok(5)),
            ("a++b", Ok(3), Err((13, 3))),
            ("a//b", Ok(1), Err((13, 4))),
            ("({", Err((11, 1)), Err((11, 1))),
            ("({)", Err((10, 2)), Err((10, 2))),
            ("while", Ok(1), Err((13, 5))),
            ("class", Err((7, 0)), Err((7, 0))),
            ("1.x", Err((6, 0)), Err((6, 0))),
            ("a.if(b)/c/;", Ok(9), Err((13, 10))),
            ("a.if(b)/c/d;", Ok(10), Ok(10)),
            ("a = {b: /)/} / c;", Ok(9), Ok(8)),
            ("this/a/b;", Ok(6), Ok(7)),
            ("a\n++b;", Ok(4), Err((13, 2))),
            ("++-a;", Ok(4), Ok(5)),
            ("a?{}/b/c:d;", Ok(10), Ok(10)),
            ("new{}/a;", Ok(5), Ok(6)),
            ("new a.b(c).d;", Ok(9), Ok(7)),
            ("a,b,c;", Ok(6), Ok(7)),
            ("1..a;", Ok(4), Ok(4)),
            ("08", Err((6, 0)), Err((6, 0))),
            (";", Ok(1), Ok(2)),
            ("while(a)/b/;", Ok(5), Ok(5)),
            ("with(a)/b/;", Ok(5), Ok(5)),
            ("for(a)/b/;", Ok(5), Err((13, 5))),
            ("do;while(a)/b/;", Ok(7), Err((13, 11))),
            ("(a;{}/b/c);", Ok(9), Err((13, 2))),
            ("a;{}/b/;", Ok(5), Ok(6)),
            ("case{}/a/b", Ok(6), Err((13, 0))),
            ("case\n{}/a/b", Ok(6), Err((13, 0))),
            ("throw{}/a/b;", Ok(7), Ok(7)),
            ("throw\n{}/a/;", Ok(4), Err((13, 6))),
            ("throw\na;", Ok(3), Err((13, 6))),
            ("if(a)if(b);else;", Ok(9), Ok(8)),
            ("break\na;", Ok(3), Err((13, 6))),
            ("var a,b=1;continue;debugger;", Ok(11), Ok(7)),
            ("for(;;)/a/;", Ok(6), Ok(4)),
            ("for(;{}/a;)/b/;", Ok(9), Ok(7)),
            ("for(a;{}/b/c;{}/d)/e/;", Ok(15), Ok(13)),
            ("for(var a=b,c;;d)e;", Ok(13), Ok(9)),
            ("for(a in b)/c/;", Ok(7), Ok(6)),
            ("for(var a in b);", Ok(7), Ok(6)),
            ("for(var a=b in c);", Ok(9), Ok(7)),
            ("for(new a.b in{}/c);", Ok(11), Ok(9)),
            ("for(a?b in c:d;;);", Ok(12), Ok(9)),
            ("for(a?b:c in d;;);", Ok(12), Err((13, 10))),
            ("for((a in b);;);", Ok(9), Ok(7)),
            ("for(a in b;;);", Ok(8), Err((13, 10))),
            ("for(a=b in c);", Ok(8), Err((13, 8))),
            ("for(a++ in b);", Ok(7), Err((13, 8))),
            ("for(-a in b);", Ok(7), Err((13, 7))),
            ("for(var a,b in c);", Ok(9), Err((13, 12))),
            ("for(var a in b,c);", Ok(9), Ok(8)),
            ("for(;;", Err((11, 3)), Err((11, 3))),
            ("for(;)a;", Ok(5), Err((13, 5))),
            ("for(a in);", Ok(5), Err((13, 8))),
            ("switch(a){}/b/;", Ok(6), Ok(5)),
            ("switch(a){case{}/b:{}/c/;default:}", Ok(14), Ok(11)),
            ("switch(a){case\n{}/b/c:}", Ok(11), Ok(9)),
            ("switch(a){case b?c:d:{}/e/;}", Ok(14), Ok(11)),
            ("switch(a){default:default:}", Ok(8), Err((13, 18))),
            ("switch(a){case b:default:case c:}", Ok(12), Ok(8)),
            ("switch(a){b;}", Ok(6), Err((13, 10))),
            ("switch(a){case b:function f(){}}", Ok(11), Err((13, 17))),
            ("switch(a){case b}", Ok(6), Err((13, 16))),
            ("try{}catch(a){}/b/;", Ok(8), Ok(7)),
            ("try{}finally{}/b/;", Ok(6), Ok(7)),
            ("try{}catch(a){}finally{}", Ok(8), Ok(7)),
            ("try{}", Ok(2), Err((13, 5))),
            ("try{};", Ok(3), Err((13, 5))),
            ("try;", Ok(2), Err((13, 3))),
            ("try{}catch{}", Ok(4), Err((13, 10))),
            ("try{}finally{}catch(a){}", Ok(8), Err((13, 14))),
            ("if(a)try{}catch(b){}else;", Ok(11), Ok(9)),
        ];
        for &(text, trees, records) in cases {
            let text = text.as_bytes();
            let read = reading(text, usize::MAX);
            let parsed = match &read {
                Ok(reading) => self.syntax(text, &reading.elements).map(|records| records.len()).map_err(|place| (13, place)),
                Err(fault) => Err(*fault),
            };
            if read.map(|reading| reading.trees.len()) != trees || parsed != records {
                self.difference(text, "the comparison's own: a reading whose answer is known");
            }
            self.text(text, true);
        }
    }
}

#[cfg(parse)]
impl Comparison {
    /// The longest runs and the deepest groups, of programs and of texts that are refused near their end, parse in little stack.
    fn runs(&mut self) -> usize {
        let runs = [texts::longest_runs(), texts::refused_runs()].concat();
        for (name, text) in &runs {
            let reading = reading(text, usize::MAX).unwrap_or_else(|fault| panic!("{name} is not read: {fault:?}"));
            let syntax = self.syntax(text, &reading.elements);
            self.parse(parse_in_little_stack, text, &syntax, 5 * reading::MOST_TREES, 3 * MOST_SYNTAX);
        }
        runs.len()
    }
}

/// The digits of a number in a base, the lowest first.
fn digits(number: usize, count: usize, base: usize) -> impl Iterator<Item = usize> {
    (0..count).scan(number, move |rest, _| {
        let digit = *rest % base;
        *rest /= base;
        Some(digit)
    })
}

fn first<T: PartialEq + std::fmt::Debug>(right: &[T], cells: &[T]) -> String {
    match (0..right.len()).find(|&index| right[index] != cells[index]) {
        Some(index) => format!("cell {index} should be {:?} and is {:?}", right[index], cells[index]),
        None => "cells are right".to_string(),
    }
}

fn compare(number: usize) -> bool {
    let mut comparison = Comparison { grammar: Grammar::new(), random: Random(1), texts: 0, programs: 0, calls: 0, differences: 0 };
    comparison.readings();
    comparison.limits();
    comparison.tables();
    comparison.short_texts();
    comparison.sequences(texts::PIECES, 4);
    comparison.sequences(texts::OPERATORS, 4);
    comparison.sequences(texts::STATEMENTS, 4);
    comparison.sequences(texts::NESTS, 6);
    for (before, pieces, most, after) in texts::WITHIN {
        comparison.sequences_within(before, pieces, *most, after);
    }
    comparison.walks(number / 4);
    comparison.random_texts(number);
    comparison.long_texts(number / 2000);
    #[cfg(parse)]
    println!("parsed in {LITTLE_STACK} bytes of stack,{}", comparison.runs());
    println!("texts,{}", comparison.texts);
    println!("programs,{}", comparison.programs);
    println!("calls,{}", comparison.calls);
    println!("differences,{}", comparison.differences);
    comparison.differences == 0
}

fn main() -> ExitCode {
    let number = std::env::args().nth(1).map_or(100_000, |word| word.parse().expect("a number of random texts"));
    // The descent goes as deep as a run is long.
    let run = std::thread::Builder::new().stack_size(1 << 29).spawn(move || compare(number)).expect("a thread");
    match run.join() {
        Ok(true) => ExitCode::SUCCESS,
        _ => ExitCode::FAILURE,
    }
}
