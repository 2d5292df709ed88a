//! Does what the proved program `journal` does, without a proof: `sheet.slr` and lines of standard
//! input to verdicts.

use bench::lines::{run, SHEET_BYTES};
use std::fs::File;
use std::io::{self, BufReader, BufWriter, Read};

const BUFFER_BYTES: usize = 1 << 16;

fn main() -> io::Result<()> {
    let mut sheet = Vec::new();
    if let Ok(file) = File::open("sheet.slr") {
        // What can't be read counts as missing.
        if file.take(SHEET_BYTES as u64).read_to_end(&mut sheet).is_err() {
            sheet.clear();
        }
    }
    let input = BufReader::with_capacity(BUFFER_BYTES, io::stdin().lock());
    let output = BufWriter::with_capacity(BUFFER_BYTES, io::stdout().lock());
    run(&sheet, input, output)
}
