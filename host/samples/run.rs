// Prints the text of the theory file on standard input.
use std::io::{Read, Write};

unsafe extern "C" {
    fn tight_run(file: *const u8, file_len: usize, out: *mut u8, out_len: usize) -> usize;
}

fn main() -> std::io::Result<()> {
    let mut file = Vec::new();
    std::io::stdin().take(65537).read_to_end(&mut file)?;
    let mut out = vec![0u8; 65536];
    // The call reads and writes nothing past the lengths that it is given.
    let n = unsafe { tight_run(file.as_ptr(), file.len(), out.as_mut_ptr(), out.len()) };
    std::io::stdout().write_all(if n == 0 { b"refused 9 9\n" } else { &out[..n] })
}
