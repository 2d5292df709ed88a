//! The proved program `journal` and the unproved one on the same journals.

use crate::timing::{clock, Effort};
use crate::workloads::{session_lines, Unheard};
use outside::cases::session_sheet;
use outside::random::Random;
use std::env;
use std::fs::{self, File};
use std::io;
use std::path::{Path, PathBuf};
use std::process::{Command, Stdio};

pub const ROUNDS: usize = 1_000_000;

/// What is not heard in the journals, and how many of a hundred lines are blank.
const JOURNALS: [(Unheard, usize); 3] = [(Unheard::Share(30), 0), (Unheard::Alternative, 0), (Unheard::Share(30), 10)];

/// Seconds of both on a journal of the session sheet.
pub struct Timed {
    unheard: Unheard,
    blank: usize,
    pub proved: f64,
    pub fast: f64,
}

impl Timed {
    /// What is not heard.
    pub fn name(&self) -> String {
        match self.blank {
            0 => self.unheard.name(),
            blank => format!("{}, and {blank} % of the rounds", self.unheard.name()),
        }
    }
}

/// Times both programs, or tells what is missing.
pub fn time(effort: Effort) -> Result<Vec<Timed>, String> {
    let package = Path::new(env!("CARGO_MANIFEST_DIR"));
    let proved = package.join("../target/bin/journal");
    let fast = env::current_exe().map_err(|error| error.to_string())?.with_file_name("journal");
    for (program, name) in [(&proved, "the proved program `journal`"), (&fast, "the unproved program `journal`")] {
        if !program.exists() {
            return Err(format!("{name} is not built"));
        }
    }
    let folder = env::temp_dir().join(format!("jigwaret-bench-{}", std::process::id()));
    let timed = JOURNALS.map(|(unheard, blank)| {
        let lines = session_lines(&mut Random::new(3), ROUNDS, unheard, blank);
        let [proved, fast] = time_in(&folder, [&proved, &fast], &lines, effort)?;
        Ok(Timed { unheard, blank, proved, fast })
    });
    // What is left behind does no harm.
    let _ = fs::remove_dir_all(&folder);
    timed.into_iter().collect::<io::Result<_>>().map_err(|error| error.to_string())
}

/// Seconds of both programs on these lines and a closing.
fn time_in(folder: &Path, programs: [&Path; 2], lines: &str, effort: Effort) -> io::Result<[f64; 2]> {
    fs::create_dir_all(folder)?;
    fs::write(folder.join("sheet.slr"), session_sheet())?;
    fs::write(folder.join("lines"), format!("{lines}.\n"))?;
    let programs = [programs[0].canonicalize()?, programs[1].canonicalize()?];
    let outputs = ["proved", "fast"].map(|name| folder.join(name));
    let mut best = [f64::INFINITY; 2];
    for _ in 0..effort.program_runs {
        for (i, program) in programs.iter().enumerate() {
            best[i] = best[i].min(run(program, folder, &outputs[i])?);
        }
    }
    let texts = [fs::read(&outputs[0])?, fs::read(&outputs[1])?];
    assert!(texts[0] == texts[1], "the programs print the same");
    assert_eq!(texts[0].iter().filter(|&&byte| byte == b'\n').count(), ROUNDS + 3);
    Ok(best)
}

fn run(program: &PathBuf, folder: &Path, output: &Path) -> io::Result<f64> {
    let input = File::open(folder.join("lines"))?;
    let mut command = Command::new(program);
    command.current_dir(folder).stdin(Stdio::from(input)).stdout(Stdio::from(File::create(output)?));
    let start = clock::of_children();
    command.status()?;
    Ok(clock::of_children() - start)
}
