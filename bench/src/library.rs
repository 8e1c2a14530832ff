//! The proven library's two C functions, behind safe ones.

#[link(name = "exports", kind = "static")]
unsafe extern "C" {
    fn sundrilga_print_paper(paper: *const u8, paper_length: usize, out: *mut u8, out_length: usize) -> usize;

    fn sundrilga_make_calls(
        buckets: u32,
        most: u32,
        rows: u32,
        calls: *const u8,
        calls_length: usize,
        numbers: *mut u8,
        numbers_length: usize,
    ) -> usize;
}

/// Runs a paper, prints its lines into `out` and gives how many bytes it printed.
pub fn print_paper(paper: &[u8], out: &mut [u8]) -> usize {
    // SAFETY: both slices are valid for their lengths, and do not overlap.
    unsafe { sundrilga_print_paper(paper.as_ptr(), paper.len(), out.as_mut_ptr(), out.len()) }
}

/// Makes a row of calls on a fresh table, writes their refusal numbers and gives how many were
/// made.
pub fn make_calls(buckets: u32, most: u32, rows: u32, calls: &[u8], numbers: &mut [u8]) -> usize {
    // SAFETY: both slices are valid for their lengths, and do not overlap.
    unsafe {
        sundrilga_make_calls(buckets, most, rows, calls.as_ptr(), calls.len(), numbers.as_mut_ptr(), numbers.len())
    }
}
