//! Times the proved library against the same algorithm without a proof, a straightforward monitor and
//! the outside tests, prints the tables and writes docs/BENCHMARKS.md. With the argument `quick`, it
//! prints the tables of checks, preparation, rounds, questions, sets, comparisons and the program, from
//! fewer repeats, and writes nothing.

use bench::measure::{self, CheckTimes, PreparationTimes, RoundTimes, SetTimes, Subject};
use bench::timing::Effort;
use bench::workloads::{self, Unheard, TRACE_LENGTHS};
use bench::{growth, program, report};
use outside::cases;
use std::path::Path;
use std::{env, fs, io, process};

fn main() -> io::Result<()> {
    let arguments: Vec<String> = env::args().skip(1).collect();
    match arguments.iter().map(String::as_str).collect::<Vec<_>>()[..] {
        [] => {
            let text = document();
            print!("{text}");
            fs::write(Path::new(env!("CARGO_MANIFEST_DIR")).join("../docs/BENCHMARKS.md"), text)
        }
        ["quick"] => {
            quick();
            Ok(())
        }
        _ => {
            eprintln!("usage: bench [quick]");
            process::exit(2)
        }
    }
}

fn quick() {
    println!("Checking a sheet\n\n{}", report::checks(&checks(Effort::QUICK)));
    let (preparations, rounds) = journals(Effort::QUICK);
    println!("Preparation\n\n{}", report::preparations(&preparations));
    println!("A round\n\n{}", report::rounds(&rounds));
    println!("Several outputs together\n\n{}", report::questions(&rounds));
    println!("Sets from masks\n\n{}", report::sets(&sets(Effort::QUICK)));
    println!("Comparisons\n\n{}", report::comparisons(&measure::comparisons(Effort::QUICK)));
    println!("The program\n\n{}", report::program(&program::time(Effort::QUICK)));
}

fn document() -> String {
    let checks = checks(Effort::FULL);
    let (preparations, rounds) = journals(Effort::FULL);
    let evaluate = |workload| TRACE_LENGTHS.map(|rounds| measure::evaluate(Effort::FULL, workload, rounds));
    let traces: Vec<_> = workloads::traces().iter().map(evaluate).collect();
    let program = program::time(Effort::FULL);
    format!(
        include_str!("benchmarks.txt"),
        setting = report::setting(),
        enough = Effort::FULL.enough,
        targets = report::targets(&preparations, &rounds, &traces, &program),
        beside = report::beside(&checks, &preparations, &rounds),
        checks = report::checks(&checks),
        preparations = report::preparations(&preparations),
        rounds = report::rounds(&rounds),
        questions = report::questions(&rounds),
        sets = report::sets(&sets(Effort::FULL)),
        traces = report::traces(&traces),
        compared = workloads::comparisons().len(),
        written_out = workloads::comparisons_written_out().len(),
        comparisons = report::comparisons(&measure::comparisons(Effort::FULL)),
        program = report::program(&program),
        by_streams = report::costs("streams", &growth::by_streams()),
        by_length = report::costs("bytes of an expression", &growth::by_length()),
        by_unheard = report::round_costs("of 100 inputs not heard", &growth::by_unheard()),
        by_rounds = report::lengths(&growth::by_rounds()),
    )
}

fn checks(effort: Effort) -> Vec<CheckTimes> {
    let check = |name, sheet: Vec<u8>| measure::check(effort, name, &sheet);
    vec![
        check("session", cases::session_sheet()),
        check("formula", workloads::formula()),
        check("longest", cases::longest()),
        check("dense, 4 inputs", workloads::dense(4, 4)),
        check("comparisons", workloads::comparisons()),
    ]
}

fn sets(effort: Effort) -> [SetTimes; 6] {
    [1, 2, 3, 4, 5, 6].map(|inputs| measure::sets(effort, inputs))
}

fn journals(effort: Effort) -> (Vec<PreparationTimes>, Vec<RoundTimes>) {
    let mut preparations = Vec::new();
    let mut rounds = Vec::new();
    for workload in &workloads::journals() {
        let subject = Subject::new(workload);
        preparations.push(subject.preparation(effort));
        let mut time = |unheard| rounds.push(subject.rounds(effort, unheard));
        [0, 30, 100].map(Unheard::Share).into_iter().for_each(&mut time);
        if workload.name == "formula" {
            time(Unheard::First);
        }
        // Masks make every set of one input's letters.
        if subject.inputs() > 1 {
            time(Unheard::Alternative);
        }
    }
    (preparations, rounds)
}
