// Times of the library's calls and of the yardstick's reading and parsing, in one process: `bench-speed ROUNDS SCRIPT SHORTER..`. Fails if
// reading or parsing the script takes over twice the yardstick's time.
mod library;
#[path = "../docs/src/reader.rs"]
mod yardstick;
#[path = "../docs/src/parser.rs"]
mod yardstick_parser;

use std::hint::black_box;
use std::process::ExitCode;
use std::time::Instant;
use std::{env, fs};

const MOST_BYTES: usize = 262_144;
const MOST_TREES: usize = 16_384;
const MOST_SYNTAX: usize = 16_385;
const DEEPEST: usize = 100;
const MOST_RATIO: f64 = 2.0;
/// What request U3 asks of the script: so many bytes, and more records than that.
const SCRIPT_BYTES: usize = MOST_BYTES;
const SCRIPT_RECORDS: u64 = 10_000;
/// Calls of one reader over one text after which its time falls no further: the processor knows the way.
const IN_A_ROW: usize = 10;

/// What the calls are lent. No call clears it: each finds what the one before left.
#[derive(PartialEq)]
struct Lent {
    trees: Vec<u32>,
    syntax: Vec<u32>,
    output: Vec<u8>,
}

impl Lent {
    /// As many cells as ever serve, and some more behind the trees.
    fn filled(byte: u8, more: usize) -> Self {
        let cell = u32::from_ne_bytes([byte; 4]);
        Lent { trees: vec![cell; 5 * MOST_TREES + more], syntax: vec![cell; 3 * MOST_SYNTAX], output: vec![byte; 2 * MOST_BYTES + 1] }
    }
}

/// A call to time: it answers below 2^32 where it accepts.
type Call = fn(&[u8], &mut Lent) -> u64;

const READ: Call = |text, lent| library::read(text, &mut lent.trees);
const PARSE: Call = |text, lent| library::parse(text, &mut lent.trees, &mut lent.syntax);
const RESPACE: Call = |text, lent| library::respace(text, &mut lent.output);

/// A call of the library, and what it is held to.
struct Held {
    library: Call,
    yardstick: Call,
}

const READING: Held = Held { library: READ, yardstick: |text, lent| yardstick::read(text, &mut lent.trees) };
const PARSING: Held = Held { library: PARSE, yardstick: |text, lent| yardstick_parser::parse(text, &mut lent.trees, &mut lent.syntax) };

/// Nanoseconds of the last of so many calls.
fn timed(call: Call, text: &[u8], lent: &mut Lent, calls: usize) -> f64 {
    for _ in 1..calls {
        black_box(call(black_box(text), black_box(lent)));
    }
    let start = Instant::now();
    black_box(call(black_box(text), black_box(lent)));
    start.elapsed().as_nanos() as f64
}

/// The value below which so many of a hundred lie.
fn percentile(values: &[f64], of_hundred: usize) -> f64 {
    let mut sorted = values.to_vec();
    sorted.sort_by(f64::total_cmp);
    sorted[(sorted.len() - 1) * of_hundred / 100]
}

/// Two calls over a text: nanoseconds a byte of each, and the first's time as a multiple of the second's by rounds.
struct Compared {
    first: f64,
    second: f64,
    ratios: Vec<f64>,
}

/// The two take turns of so many calls, and take turns in going first.
fn compared(first: Call, second: Call, text: &[u8], lent: &mut Lent, rounds: usize, calls: usize) -> Compared {
    let (mut firsts, mut seconds) = (Vec::new(), Vec::new());
    for round in 0..rounds {
        if round % 2 == 0 {
            firsts.push(timed(first, text, lent, calls));
            seconds.push(timed(second, text, lent, calls));
        } else {
            seconds.push(timed(second, text, lent, calls));
            firsts.push(timed(first, text, lent, calls));
        }
    }
    let a_byte = |times: &[f64]| percentile(times, 50) / text.len() as f64;
    let ratios = firsts.iter().zip(&seconds).map(|(first, second)| first / second).collect();
    Compared { first: a_byte(&firsts), second: a_byte(&seconds), ratios }
}

/// The number of records, where library and yardstick accept a text with the same answer and cells.
fn records(held: &Held, text: &[u8]) -> Option<u64> {
    let (mut cells, mut own) = (Lent::filled(0x5a, 3), Lent::filled(0x5a, 3));
    let answer = (held.library)(text, &mut cells);
    (answer >> 32 == 0 && answer == (held.yardstick)(text, &mut own) && cells == own).then_some(answer)
}

/// Times a call over a text beside the yardstick, prints a row, and gives the median ratio.
fn row(what: &str, held: &Held, text: &[u8], lent: &mut Lent, rounds: usize, calls: usize) -> Option<f64> {
    let Some(records) = records(held, text) else {
        eprintln!("bench/speed: {what}: a text is refused, or library and yardstick differ over it");
        return None;
    };
    let Compared { first, second, ratios } = compared(held.library, held.yardstick, text, lent, rounds, calls);
    let [low, middle, high] = [5, 50, 95].map(|part| percentile(&ratios, part));
    println!("{what},{},{records},{first:.3},{second:.3},{middle:.2},{low:.2},{high:.2}", text.len());
    Some(middle)
}

fn repeated(before: &str, run: &str, times: usize, after: &str) -> Vec<u8> {
    [before, &run.repeat(times), after].concat().into_bytes()
}

/// Texts of one form each, as long as the limits allow.
fn forms() -> Vec<(&'static str, Vec<u8>)> {
    let whole = |before: &str, run: &str, after: &str| repeated(before, run, (MOST_BYTES - before.len() - after.len()) / run.len(), after);
    let nest = ["(".repeat(DEEPEST), ")".repeat(DEEPEST)].concat();
    vec![
        ("one record a byte", repeated("", ";", MOST_TREES, "")),
        ("names of one letter", repeated("", "a ", MOST_TREES, "")),
        ("words", repeated("", "return ", MOST_TREES, "")),
        ("words as names", repeated("", ".while", MOST_TREES / 2, "")),
        ("words that are operators", repeated("", "typeof ", MOST_TREES, "")),
        ("words that are values", repeated("", "this ", MOST_TREES, "")),
        ("longest signs", repeated("", ">>>=", MOST_TREES, "")),
        ("increments", repeated("", "++", MOST_TREES, "")),
        ("conditionals", repeated("", "a?b:", MOST_TREES / 4, "")),
        ("empty groups", repeated("", "{}", MOST_TREES, "")),
        ("deepest groups", repeated("", &nest, MOST_TREES / DEEPEST, "")),
        ("line comment", whole("//", "x", "")),
        ("short line comments", whole("", "//\n", "")),
        ("block comment", whole("/*", "x", "*/")),
        ("block comment of stars", whole("/*", "*", "*/")),
        ("block comment of line ends", whole("/*", "\n", "*/")),
        ("short block comments", whole("", "/**/", "")),
        ("pattern", whole("/", "x", "/")),
        ("pattern of classes", whole("/", "[]", "/")),
        ("pattern of pairs", whole("/", "\\/", "/")),
        ("string", whole("'", "x", "'")),
        ("string of pairs", whole("'", "\\'", "'")),
        ("name", whole("", "x", "")),
        ("number", whole("", "1", "")),
        ("fraction", whole(".", "1", "")),
        ("hexadecimal number", whole("0x", "f", "")),
        ("blanks", whole("", " ", "")),
        ("line ends", whole("", "\n", "")),
    ]
}

/// The largest of the script's ratios.
fn times(rounds: usize, script: &[u8], shorter: &[Vec<u8>]) -> Option<f64> {
    let mut lent = Lent::filled(0, 0);
    if script.len() != SCRIPT_BYTES || records(&READING, script).is_none_or(|records| records <= SCRIPT_RECORDS) {
        eprintln!("bench/speed: the script is not of {SCRIPT_BYTES} bytes and more than {SCRIPT_RECORDS} records");
        return None;
    }
    println!("text,bytes,records,library ns/byte,yardstick ns/byte,ratio,5th percentile,95th percentile");
    let mut most = 0f64;
    for (what, held, calls) in [
        ("script in turn", &READING, 1),
        ("script in a row", &READING, IN_A_ROW),
        ("script parsed in turn", &PARSING, 1),
        ("script parsed in a row", &PARSING, IN_A_ROW),
    ] {
        most = most.max(row(what, held, script, &mut lent, rounds, calls)?);
    }
    for text in shorter {
        row("shorter script in turn", &READING, text, &mut lent, rounds, 1)?;
    }
    for (name, text) in forms() {
        row(name, &READING, &text, &mut lent, rounds, 1)?;
    }
    println!("call,ns/byte,ratio to reading");
    for (name, call) in [("parse", PARSE), ("respace", RESPACE)] {
        if call(script, &mut lent) >> 32 != 0 {
            eprintln!("bench/speed: {name} refuses the script");
            return None;
        }
        let Compared { first, ratios, .. } = compared(call, READ, script, &mut lent, rounds, 1);
        println!("{name},{first:.3},{:.2}", percentile(&ratios, 50));
    }
    Some(most)
}

fn main() -> ExitCode {
    let arguments: Vec<String> = env::args().collect();
    let rounds = arguments[1].parse().expect("a number of rounds");
    let mut texts = arguments[2..].iter().map(|path| fs::read(path).expect("a script"));
    let script = texts.next().expect("a script");
    match times(rounds, &script, &texts.collect::<Vec<_>>()) {
        None => ExitCode::FAILURE,
        Some(ratio) if ratio > MOST_RATIO => {
            eprintln!("bench/speed: reading or parsing takes {ratio:.2} times as long as the yardstick, over {MOST_RATIO}");
            ExitCode::FAILURE
        }
        Some(_) => ExitCode::SUCCESS,
    }
}
