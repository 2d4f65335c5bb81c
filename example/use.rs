//! The library from Rust: what document 01's program prints for its three files, here with a sheet that ends too early.

extern "C" {
    fn arcovinda_transcript(
        sheet: *const u8,
        sheet_length: usize,
        memory: *mut u8,
        memory_length: usize,
        trace: *const u8,
        trace_length: usize,
        text: *mut u8,
        text_length: usize,
    ) -> usize;
}

/// The text, and the memory as the trace leaves it. A buffer of 80 bytes for each byte of the trace and 80 more holds every text.
fn transcript(sheet: &[u8], memory: &mut [u8], trace: &[u8]) -> String {
    let mut text = vec![0; 80 * trace.len() + 80];
    // Each part is lent with its own length, and no two overlap.
    let length = unsafe {
        arcovinda_transcript(
            sheet.as_ptr(),
            sheet.len(),
            memory.as_mut_ptr(),
            memory.len(),
            trace.as_ptr(),
            trace.len(),
            text.as_mut_ptr(),
            text.len(),
        )
    };
    text.truncate(length);
    String::from_utf8(text).expect("ASCII")
}

fn main() {
    print!("{}", transcript(&[1, 0, 1, 0], &mut [], &[]));
}
