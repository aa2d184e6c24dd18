//! Prints what `readings`, or with the argument `listings` what `listing_cases`, is to print of the cases on standard input, by the implementation here.

mod elements;
mod reading;
mod syntax;

use elements::Fault;
use reading::{reading, respaced};
use std::io::Read;

const MOST_TEXT: usize = 262_200;
const MOST_NUMBER: usize = 1_000_000;
const TREE_CELLS: usize = 81_926;
const SYNTAX_CELLS: usize = 49_159;
const OUTPUT: usize = 500;
const MOST_SYNTAX: usize = 16_385;
/// Of more records only the first and the last are shown, with the sum of all cells.
const SHOWN: usize = 24;

/// A number with a blank behind it, and the place behind that.
fn number_at(line: &[u8], at: usize) -> Option<(usize, usize)> {
    let end = at + line.get(at..)?.iter().position(|&byte| byte == b' ')?;
    let value = std::str::from_utf8(&line[at..end]).ok()?;
    let all_digits = !value.is_empty() && value.bytes().all(|byte| byte.is_ascii_digit());
    let value = if all_digits { value.parse().ok()? } else { return None };
    (value <= MOST_NUMBER).then_some((value, end + 1))
}

/// The text that a line spells from a place on.
fn text_of(line: &[u8], from: usize) -> Option<Vec<u8>> {
    let mut text = Vec::new();
    let mut piece: Option<(usize, usize)> = None;
    let mut at = from;
    while at < line.len() {
        match (line[at], line.get(at + 1)) {
            (b'~', Some(b'<')) => {
                let (times, next) = number_at(line, at + 2).filter(|(times, _)| piece.is_none() && *times > 0)?;
                piece = Some((text.len(), times));
                at = next;
            }
            (b'~', Some(b'>')) => {
                let (start, times) = piece.take()?;
                let copy = text[start..].to_vec();
                if text.len() + copy.len() * (times - 1) > MOST_TEXT {
                    return None;
                }
                for _ in 1..times {
                    text.extend_from_slice(&copy);
                }
                at += 2;
            }
            (b'~', _) => {
                let digits = std::str::from_utf8(line.get(at + 1..at + 3)?).ok()?;
                text.push(u8::from_str_radix(digits, 16).ok()?);
                at += 3;
            }
            (byte, _) => {
                text.push(byte);
                at += 1;
            }
        }
    }
    (piece.is_none() && text.len() <= MOST_TEXT).then_some(text)
}

/// A number that all of the numbers determine.
fn sum(numbers: impl Iterator<Item = u64>) -> u64 {
    numbers.fold(0, |total, number| (total * 31 + number) % 1_000_003)
}

fn shown<const WIDTH: usize>(name: &str, records: &[[u32; WIDTH]]) -> String {
    let cells = |record: &[u32; WIDTH]| " ".to_string() + &record.map(|cell| cell.to_string()).join(",");
    let listed = if records.len() <= SHOWN {
        records.iter().map(cells).collect::<String>()
    } else {
        let total = sum(records.iter().flatten().map(|&cell| u64::from(cell)));
        format!(" first{} last{} sum {total}", cells(&records[0]), cells(&records[records.len() - 1]))
    };
    format!("{name},{}{listed} rest kept", records.len())
}

fn refused((number, place): Fault) -> String {
    format!("refused,{number},{place}")
}

fn syntax_records(text: &[u8], tree_room: usize, room: usize) -> Result<Vec<[u32; 3]>, Fault> {
    let elements = reading(text, tree_room)?.elements;
    let place = |index: usize| elements.get(index).map_or(text.len(), |element| element.first);
    let tree = syntax::syntax_tree(&elements).map_err(|index| (13, place(index)))?;
    if tree.records.len() > room.min(MOST_SYNTAX) {
        return Err((14, text.len()));
    }
    Ok(tree.records)
}

fn respaced_text(text: &[u8], room: usize) -> Result<Vec<u8>, Fault> {
    let output = respaced(text, &reading(text, usize::MAX)?.elements);
    if output.len() > room {
        return Err((15, text.len()));
    }
    Ok(output)
}

fn case(line: &[u8]) -> Option<String> {
    let letter = line[0];
    let (lent, at) = number_at(line, usize::from(letter == b'>' || letter == b'p'))?;
    let text = text_of(line, at)?;
    let most = match letter {
        b'>' => OUTPUT,
        b'p' => SYNTAX_CELLS,
        _ => TREE_CELLS,
    };
    if lent > most {
        return None;
    }
    let answer = match letter {
        b'>' => respaced_text(&text, lent).map(|output| {
            let written: String = output.iter().map(|&byte| if byte == b'\n' { "~0A".to_string() } else { char::from(byte).to_string() }).collect();
            format!("bytes,{} {written} rest kept", output.len())
        }),
        b'p' => syntax_records(&text, TREE_CELLS / 5, lent / 3).map(|records| shown("syntax", &records)),
        _ => reading(&text, lent / 5).map(|reading| shown("trees", &reading.trees)),
    };
    Some(answer.unwrap_or_else(|fault| refused(fault) + " all zero"))
}

fn lines<const WIDTH: usize>(name: &str, records: &[[u32; WIDTH]]) -> Vec<u8> {
    let mut output = format!("{name},{}\n", records.len());
    for record in records {
        output += &(record.map(|cell| cell.to_string()).join(",") + "\n");
    }
    output.into_bytes()
}

/// `treelist` and the other programs over a text: how much they print, a number that it determines, and its first line.
fn listing(line: &[u8]) -> Option<String> {
    let text = text_of(line, 2)?;
    let output = match line[0] {
        b'l' if text.len() > 8_192 => Err((1, reading::LONGEST_TEXT)),
        b'l' => reading(&text, 3_000).map(|reading| lines("trees", &reading.trees)),
        b't' => reading(&text, usize::MAX).map(|reading| lines("trees", &reading.trees)),
        b's' => syntax_records(&text, usize::MAX, MOST_SYNTAX).map(|records| lines("syntax", &records)),
        b'r' => respaced_text(&text, usize::MAX),
        _ => return None,
    };
    let output = output.unwrap_or_else(|fault| (refused(fault) + "\n").into_bytes());
    let first = output.split(|&byte| byte == b'\n').next().expect("a line");
    Some(format!("bytes,{} sum,{} {}", output.len(), sum(output.iter().map(|&byte| u64::from(byte))), String::from_utf8_lossy(first)))
}

fn print_all(answer: fn(&[u8]) -> Option<String>) {
    let mut input = Vec::new();
    std::io::stdin().read_to_end(&mut input).expect("cases");
    for line in input.split(|&byte| byte == b'\n').filter(|line| !line.is_empty()) {
        match line[0] {
            b'#' => println!("{}", String::from_utf8_lossy(line)),
            _ => println!("{}", answer(line).unwrap_or_else(|| "bad case".to_string())),
        }
    }
}

fn main() {
    let listings = std::env::args().nth(1).is_some_and(|word| word == "listings");
    // The descent goes as deep as a run is long.
    let run = std::thread::Builder::new().stack_size(1 << 29).spawn(move || print_all(if listings { listing } else { case })).expect("a thread");
    run.join().expect("answers");
}
