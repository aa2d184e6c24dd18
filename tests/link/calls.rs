// The three calls from Rust: prints what they answer of one text, and the refusals of another; or what they answer of a file.
use std::io::Write;

unsafe extern "C" {
    fn buldrekso_read(text: *const u8, text_len: usize, trees: *mut u32, trees_len: usize) -> u64;
    fn buldrekso_parse(text: *const u8, text_len: usize, trees: *mut u32, trees_len: usize, syntax: *mut u32, syntax_len: usize) -> u64;
    fn buldrekso_respace(text: *const u8, text_len: usize, output: *mut u8, output_len: usize) -> u64;
}

/// The count, or number and place of the refusal.
fn answer(packed: u64) -> Result<usize, (u32, u32)> {
    if packed >> 32 == 0 { Ok(packed as usize) } else { Err(((packed >> 32) as u32, packed as u32)) }
}

// A slice's pointer and length are those of memory that the call may read or write, and `&mut` keeps the slices apart.
fn read(text: &[u8], trees: &mut [u32]) -> Result<usize, (u32, u32)> {
    answer(unsafe { buldrekso_read(text.as_ptr(), text.len(), trees.as_mut_ptr(), trees.len()) })
}

fn parse(text: &[u8], trees: &mut [u32], syntax: &mut [u32]) -> Result<usize, (u32, u32)> {
    answer(unsafe { buldrekso_parse(text.as_ptr(), text.len(), trees.as_mut_ptr(), trees.len(), syntax.as_mut_ptr(), syntax.len()) })
}

fn respace(text: &[u8], output: &mut [u8]) -> Result<usize, (u32, u32)> {
    answer(unsafe { buldrekso_respace(text.as_ptr(), text.len(), output.as_mut_ptr(), output.len()) })
}

fn records(name: &str, answer: Result<usize, (u32, u32)>, table: &[u32], width: usize) {
    match answer {
        Err((number, place)) => println!("refused,{number},{place}"),
        Ok(count) => {
            println!("{name},{count}");
            for record in table[..count * width].chunks(width) {
                println!("{}", record.iter().map(u32::to_string).collect::<Vec<_>>().join(","));
            }
        }
    }
}

fn all(text: &[u8]) {
    let mut trees = vec![0; 5 * 16384];
    let mut syntax = vec![0; 3 * 16385];
    let mut output = vec![0; 2 * text.len() + 1];
    records("trees", read(text, &mut trees), &trees, 5);
    records("syntax", parse(text, &mut trees, &mut syntax), &syntax, 3);
    match respace(text, &mut output) {
        Err((number, place)) => println!("refused,{number},{place}"),
        Ok(count) => std::io::stdout().write_all(&output[..count]).expect("the output can be written"),
    }
}

fn main() {
    match std::env::args().nth(1) {
        Some(file) => all(&std::fs::read(file).expect("the script can be read")),
        None => {
            all(b"a = {b: /)/} / c;");
            all(b"a/)/;");
        }
    }
}
