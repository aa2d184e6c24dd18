// Reads, parses or respaces a script so many times through the static library, or reads or parses it by the yardstick, and prints the answer of the last call.
mod library;
#[path = "../docs/src/reader.rs"]
mod yardstick;
#[path = "../docs/src/parser.rs"]
mod yardstick_parser;

use std::{env, fs};

fn main() {
    let arguments: Vec<String> = env::args().collect();
    let call = arguments[1].as_str();
    let text = fs::read(&arguments[2]).expect("a script");
    let times: usize = arguments[3].parse().expect("a number of calls");
    let mut trees = vec![0u32; 16_384 * 5];
    let mut syntax = vec![0u32; 16_385 * 3];
    let mut output = vec![0u8; 2 * text.len() + 1];
    let mut answer = 0;
    for _ in 0..times {
        answer = match call {
            "yardstick-read" => yardstick::read(&text, &mut trees),
            "yardstick-parse" => yardstick_parser::parse(&text, &mut trees, &mut syntax),
            "read" => library::read(&text, &mut trees),
            "parse" => library::parse(&text, &mut trees, &mut syntax),
            _ => library::respace(&text, &mut output),
        };
    }
    match answer >> 32 {
        0 => println!("{call},{answer}"),
        number => println!("{call},refused,{number},{}", answer & 0xffff_ffff),
    }
}
