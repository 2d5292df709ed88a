//! Writes what the program `vectors` reads and what it and the program `letter_sets` have to write,
//! beside their sources.

use outside::letter_table;
use outside::vectors::{self, Seen};
use std::fs;
use std::path::Path;

fn main() -> std::io::Result<()> {
    let cases = vectors::cases();
    let (read, written) = (vectors::stdin(&cases), vectors::stdout(&cases));
    let seen = Seen::of(&cases, &written);
    seen.expect_all();
    let crates = Path::new(env!("CARGO_MANIFEST_DIR")).join("../crates");
    fs::write(crates.join("vectors/stdin"), &read)?;
    fs::write(crates.join("vectors/stdout"), &written)?;
    fs::write(crates.join("letter_sets/stdout"), letter_table::text())?;
    println!("{} bytes in, {} bytes out, {seen:?}", read.len(), written.len());
    Ok(())
}
