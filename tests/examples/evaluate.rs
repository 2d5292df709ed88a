//! Evaluates a sheet over letters: `evaluate SHEET LETTER..` prints one byte for each round, bit k being output k.

use std::env;
use std::fs;
use std::process::ExitCode;

fn main() -> ExitCode {
    let mut words = env::args().skip(1);
    let Some(path) = words.next() else {
        eprintln!("usage: evaluate SHEET LETTER..");
        return ExitCode::from(2);
    };
    let sheet = match fs::read(&path) {
        Ok(bytes) => bytes,
        Err(error) => {
            eprintln!("{path}: {error}");
            return ExitCode::from(2);
        }
    };
    let mut letters = Vec::new();
    for word in words {
        match word.parse::<u8>() {
            Ok(letter) => letters.push(letter),
            Err(_) => {
                eprintln!("not a letter: {word}");
                return ExitCode::from(2);
            }
        }
    }
    let mut out = vec![0; letters.len()];
    match outside::library::evaluate(&sheet, &letters, &mut out) {
        0 => {
            let line: Vec<String> = out.iter().map(u8::to_string).collect();
            println!("{}", line.join(" "));
            ExitCode::SUCCESS
        }
        number => {
            println!("refused {number}");
            ExitCode::FAILURE
        }
    }
}
