// Stack that parsing takes over texts that make one run, or groups, as long or as deep as the limits allow.
#[path = "../tests/compare/reading.rs"]
#[allow(dead_code)]
mod reading;
#[path = "../tests/compare/elements.rs"]
#[allow(dead_code)]
mod elements;
#[path = "../tests/compare/texts.rs"]
#[allow(dead_code)]
mod texts;
#[allow(dead_code)]
mod library;

use library::parse;
use std::process::ExitCode;
use std::thread;

const MOST_STACK: usize = 192 * 1024;
const NO_PROGRAM: u64 = 13;
const PAINTED: usize = 16 * 1024 * 1024;
const PAINT: u64 = 0x5ac3_96f0_1e2d_7b48;

/// Paints the unused stack, parses, and finds how much of the paint is gone.
#[inline(never)]
fn measured(text: &[u8], trees: &mut [u32], syntax: &mut [u32]) -> (u64, usize) {
    let here = 0u64;
    let top = (&raw const here as usize - 4096) & !7;
    let words = PAINTED / 8;
    let base = top - PAINTED;
    // The thread's stack is far larger than what is painted, and nothing else uses what lies below this frame.
    for index in 0..words {
        unsafe { ((base + 8 * index) as *mut u64).write_volatile(PAINT) };
    }
    let answer = parse(text, trees, syntax);
    let untouched = (0..words).take_while(|index| unsafe { ((base + 8 * index) as *const u64).read_volatile() } == PAINT).count();
    (answer, PAINTED - 8 * untouched + 4096)
}

/// The stack that parsing a text takes, whose answer must have a number: 0 where it is accepted.
fn stack_of(name: &str, text: &[u8], number: u64) -> Option<usize> {
    let text = text.to_vec();
    let run = thread::Builder::new().stack_size(4 * PAINTED);
    let (answer, stack) = run.spawn(move || measured(&text, &mut vec![0; 16_384 * 5], &mut vec![0; 16_385 * 3])).expect("a thread").join().expect("a figure");
    match answer >> 32 {
        0 => println!("stack,{stack},{name},accepted,{answer}"),
        number => println!("stack,{stack},{name},refused,{number},{}", answer & 0xffff_ffff),
    }
    (answer >> 32 == number).then_some(stack)
}

fn main() -> ExitCode {
    let programs = texts::longest_runs().into_iter().map(|(name, text)| (name, text, 0));
    let refused = texts::refused_runs().into_iter().map(|(name, text)| (name, text, NO_PROGRAM));
    let mut most = 0;
    for (name, text, number) in programs.chain(refused) {
        match stack_of(name, &text, number) {
            Some(stack) => most = most.max(stack),
            None => return ExitCode::FAILURE,
        }
    }
    println!("most,{most},of,{MOST_STACK}");
    if most > MOST_STACK {
        return ExitCode::FAILURE;
    }
    ExitCode::SUCCESS
}
