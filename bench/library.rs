// The static library's calls over slices.
extern "C" {
    fn buldrekso_read(text: *const u8, text_len: usize, trees: *mut u32, trees_len: usize) -> u64;
    fn buldrekso_parse(text: *const u8, text_len: usize, trees: *mut u32, trees_len: usize, syntax: *mut u32, syntax_len: usize) -> u64;
    fn buldrekso_respace(text: *const u8, text_len: usize, output: *mut u8, output_len: usize) -> u64;
}

// The calls ask nothing of their caller; the slices say what they may touch.
pub fn read(text: &[u8], trees: &mut [u32]) -> u64 {
    unsafe { buldrekso_read(text.as_ptr(), text.len(), trees.as_mut_ptr(), trees.len()) }
}

pub fn parse(text: &[u8], trees: &mut [u32], syntax: &mut [u32]) -> u64 {
    unsafe { buldrekso_parse(text.as_ptr(), text.len(), trees.as_mut_ptr(), trees.len(), syntax.as_mut_ptr(), syntax.len()) }
}

pub fn respace(text: &[u8], output: &mut [u8]) -> u64 {
    unsafe { buldrekso_respace(text.as_ptr(), text.len(), output.as_mut_ptr(), output.len()) }
}
