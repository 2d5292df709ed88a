//! Times of the proved library and of what it is compared with on the same inputs, after checking that
//! the answers are the same.

use crate::fast::entries::{self, Journal};
use crate::fast::{trace, Sheet};
use crate::straightforward;
use crate::timing::{Effort, Parts};
use crate::workloads::{self, Unheard, Workload, TRACE_LENGTHS};
use jigwaret::raw;
use outside::journal::{Book, Held};
use outside::letters::{Heard, LetterSet};
use outside::monitor::Monitor;
use outside::{circular, language};
use std::hint::black_box;

/// Rounds are timed in parts that last so long at least, in seconds.
const SHORTEST_PART: f64 = 60e-6;
/// Questions are timed at so many places of a journal at most, so many at each.
const PLACES: usize = 20;
const QUESTIONS: usize = 500;

/// Seconds of a function, in the library, in the same algorithm without a proof, and in the outside
/// tests.
#[derive(Clone, Copy)]
pub struct Times {
    pub proved: f64,
    pub fast: f64,
    pub plain: f64,
}

/// Seconds of the monitors.
#[derive(Clone, Copy)]
pub struct MonitorTimes {
    pub proved: f64,
    /// The same algorithm, called as the library is.
    pub fast: f64,
    pub straightforward: f64,
    /// The outside tests' monitor.
    pub tabled: f64,
}

pub struct CheckTimes {
    pub name: &'static str,
    pub bytes: usize,
    pub times: Times,
}

pub struct PreparationTimes {
    pub name: &'static str,
    pub inputs: usize,
    pub outputs: usize,
    pub live_pairs: u32,
    pub reach: u32,
    pub times: MonitorTimes,
}

pub struct RoundTimes {
    pub name: &'static str,
    pub streams: usize,
    pub unheard: Unheard,
    /// The mean number of pairs reached.
    pub pairs: f64,
    /// Of one round.
    pub times: MonitorTimes,
    /// The same algorithm with a sheet that is read once.
    pub kept: f64,
    /// Of one round in the library, where the rounds of a stretch take the least.
    pub quickest: f64,
    pub question: QuestionTimes,
}

/// Seconds of a question whether all outputs are true together, at some places of a journal.
#[derive(Clone, Copy)]
pub struct QuestionTimes {
    pub proved: f64,
    /// The same algorithm, called as the library is.
    pub fast: f64,
}

/// Seconds of the library alone.
pub struct ProvedTimes {
    pub preparation: f64,
    pub round: f64,
    /// The mean number of pairs reached.
    pub pairs: f64,
}

/// Making a set from masks.
pub struct SetTimes {
    pub inputs: u8,
    /// Of one set.
    pub times: Times,
}

pub struct TraceTimes {
    pub name: &'static str,
    pub rounds: usize,
    pub times: Times,
}

/// Seconds of the library alone, first with comparisons written out, then with these as such.
pub struct ComparisonTimes {
    pub check: [f64; 2],
    pub preparation: [f64; 2],
    pub unheard: Unheard,
    /// Of one round.
    pub round: [f64; 2],
    pub rounds: usize,
    /// Of a trace of so many rounds.
    pub trace: [f64; 2],
}

/// Rules 1 to 10.
pub fn check(effort: Effort, name: &'static str, sheet: &[u8]) -> CheckTimes {
    let expected = circular::accept(sheet).err().unwrap_or(0);
    assert_eq!((raw::check(sheet), Sheet::accept(sheet).err().unwrap_or(0)), (expected, expected), "{name}");
    let [proved, fast, plain] = effort.shortest([
        &mut || assert_eq!(raw::check(black_box(sheet)), expected),
        &mut || assert_eq!(Sheet::accept(black_box(sheet)).err().unwrap_or(0), expected),
        &mut || assert_eq!(circular::accept(black_box(sheet)).err().unwrap_or(0), expected),
    ]);
    CheckTimes { name, bytes: sheet.len(), times: Times { proved, fast, plain } }
}

/// A workload with all that preparation finds in its sheet.
pub struct Subject<'a> {
    workload: &'a Workload,
    /// By the library.
    prepared: Held,
    /// By the same algorithm, with the sheet read once.
    kept: Journal<'a>,
    straightforward: straightforward::Monitor,
    tabled: Monitor,
}

impl Subject<'_> {
    /// Prepares the sheet on all sides, and compares what they found.
    pub fn new(workload: &Workload) -> Subject<'_> {
        let (sheet, name) = (&workload.sheet, workload.name);
        let (mut prepared, mut fast) = (Held::fresh(), Held::fresh());
        assert_eq!((proved_preparation(sheet, &mut prepared), fast_preparation(sheet, &mut fast)), (0, 0), "{name}");
        assert!(prepared == fast, "{name}: preparation");
        let kept = Journal::prepare(Sheet::accept(sheet).expect("accepted by the others"));
        let straightforward = straightforward::Monitor::new(sheet).expect("accepted by the others");
        let tabled = Monitor::new(sheet).expect("accepted by the others");
        let [live, reach] = [0, 1].map(|number| prepared.answer[number] as usize);
        assert_eq!((straightforward.live.len(), tabled.live.count()), (live, live), "{name}");
        assert_eq!((kept.live_pairs as usize, kept.reach, tabled.reach), (live, reach, reach), "{name}");
        Subject { workload, prepared, kept, straightforward, tabled }
    }

    pub fn inputs(&self) -> usize {
        self.tabled.sheet.inputs
    }

    pub fn preparation(&self, effort: Effort) -> PreparationTimes {
        let sheet = &self.workload.sheet;
        let (mut first, mut second) = (Held::fresh(), Held::fresh());
        let [proved, fast, straightforward, tabled] = effort.shortest([
            &mut || assert_eq!(proved_preparation(sheet, &mut first), 0),
            &mut || assert_eq!(fast_preparation(sheet, &mut second), 0),
            &mut || assert!(black_box(straightforward::Monitor::new(sheet)).is_ok()),
            &mut || assert!(black_box(Monitor::new(sheet)).is_ok()),
        ]);
        PreparationTimes {
            name: self.workload.name,
            inputs: self.inputs(),
            outputs: self.tabled.sheet.outputs(),
            live_pairs: self.prepared.answer[0],
            reach: self.prepared.answer[1],
            times: MonitorTimes { proved, fast, straightforward, tabled },
        }
    }

    pub fn rounds(&self, effort: Effort, unheard: Unheard) -> RoundTimes {
        let sheet = &self.workload.sheet;
        let heard = workloads::rounds(self.workload, &self.tabled, unheard);
        let pairs = self.same_answers(&heard);
        let stretches = self.stretches(effort, &heard);
        let parts = effort.shortest_parts([
            &mut |parts| self.play_proved(&stretches, parts),
            &mut |parts| {
                let mut held = self.prepared.clone();
                stretches.play(parts, |round| assert_eq!(fast_round(sheet, &mut held, round), 0));
            },
            &mut |parts| {
                let mut kept = self.kept.clone();
                stretches.play(parts, |round| assert!(kept.round(round).is_ok()));
            },
            &mut |parts| {
                let mut journal = straightforward::Journal::new(&self.straightforward);
                stretches.play(parts, |round| assert!(journal.round(round).is_ok()));
            },
            &mut |parts| {
                let mut book = Book::new(&self.tabled);
                stretches.play(parts, |round| assert!(book.round(LetterSet(round)).is_ok()));
            },
        ]);
        let quickest = stretches.quickest(&parts[0]);
        let mean = |times: Vec<f64>| times.iter().sum::<f64>() / heard.len() as f64;
        let [proved, fast, kept, straightforward, tabled] = parts.map(mean);
        let times = MonitorTimes { proved, fast, straightforward, tabled };
        let streams = self.inputs() + self.tabled.sheet.outputs();
        let question = self.questions(effort, &heard);
        RoundTimes { name: self.workload.name, streams, unheard, pairs, times, kept, quickest, question }
    }

    /// About all outputs, at places that are spread over a journal.
    fn questions(&self, effort: Effort, heard: &[u64]) -> QuestionTimes {
        let sheet = &self.workload.sheet;
        let (mut held, mut places) = (self.prepared.clone(), Vec::new());
        for stretch in heard.chunks(heard.len().div_ceil(PLACES)) {
            stretch.iter().for_each(|&round| assert_eq!(proved_round(sheet, &mut held, round), 0));
            places.push(held.clone());
        }
        let (places, every) = (&places, self.every_output());
        let functions: [Ask; 2] = [raw::together, entries::together];
        let [mut proved, mut fast] = functions.map(|function| {
            move |parts: &mut Parts| {
                // Called, not inlined, like the library's.
                let (function, mut answer) = (black_box(function), [0; 16]);
                parts.end_part();
                for Held { storage, record, .. } in places {
                    (0..QUESTIONS).for_each(|_| assert_eq!(function(sheet, storage, record, every, &mut answer), 0));
                    parts.end_part();
                }
            }
        });
        let asked = (places.len() * QUESTIONS) as f64;
        let [proved, fast] = effort.shortest_by_parts([&mut proved, &mut fast]).map(|time| time / asked);
        QuestionTimes { proved, fast }
    }

    /// The set of all outputs.
    fn every_output(&self) -> u8 {
        0x7F >> (7 - self.tabled.sheet.outputs())
    }

    /// The library alone, on a journal that the others answer alike.
    pub fn proved(&self, effort: Effort, unheard: Unheard) -> ProvedTimes {
        let sheet = &self.workload.sheet;
        let heard = workloads::rounds(self.workload, &self.tabled, unheard);
        let pairs = self.same_answers(&heard);
        let mut held = Held::fresh();
        let [preparation] = effort.shortest([&mut || assert_eq!(proved_preparation(sheet, &mut held), 0)]);
        let stretches = self.stretches(effort, &heard);
        let [journal] = effort.shortest_by_parts([&mut |parts| self.play_proved(&stretches, parts)]);
        ProvedTimes { preparation, round: journal / heard.len() as f64, pairs }
    }

    fn play_proved(&self, stretches: &Stretches, parts: &mut Parts) {
        let mut held = self.prepared.clone();
        stretches.play(parts, |round| assert_eq!(proved_round(&self.workload.sheet, &mut held, round), 0));
    }

    /// So many rounds at once last long enough to be timed, even with the fastest monitor.
    fn stretches<'a>(&self, effort: Effort, heard: &'a [u64]) -> Stretches<'a> {
        let [fastest] = effort.shortest([&mut || {
            let mut kept = self.kept.clone();
            heard.iter().for_each(|&round| assert!(kept.round(round).is_ok()));
        }]);
        Stretches { heard, length: (SHORTEST_PART / fastest * heard.len() as f64).ceil() as usize }
    }

    /// Plays a journal on all sides and compares numbers, verdicts and records after each call, and the
    /// storage of the two that have some. Returns the mean number of pairs reached.
    fn same_answers(&self, heard: &[u64]) -> f64 {
        let (sheet, name) = (&self.workload.sheet, self.workload.name);
        let (mut proved, mut fast, mut kept) = (self.prepared.clone(), self.prepared.clone(), self.kept.clone());
        let mut journal = straightforward::Journal::new(&self.straightforward);
        let mut book = Book::new(&self.tabled);
        let n = self.tabled.sheet.outputs();
        let mut pairs = 0;
        for &round in heard {
            let numbers = (proved_round(sheet, &mut proved, round), fast_round(sheet, &mut fast, round));
            assert_eq!(numbers, (0, 0), "{name}");
            assert!(proved == fast, "{name}: round {}", proved.record[0]);
            let own = kept.round(round).expect("accepted by the others");
            let direct = journal.round(round).expect("accepted by the others");
            let tabled = book.round(LetterSet(round)).expect("accepted by the others");
            for k in 0..n {
                let verdicts = [own[k] as u32, direct[k] as u32, tabled.verdicts[k] as u32];
                assert_eq!(verdicts, [proved.answer[k]; 3], "{name}");
                assert_eq!([journal.counts[k], book.counts[k]], [proved.counts(k); 2], "{name}");
            }
            assert_eq!(kept.record[..], proved.record[..], "{name}");
            // All outputs, and another set in each round.
            for outputs in [self.every_output(), proved.record[0] as u8 & self.every_output()] {
                let numbers = [
                    raw::together(sheet, &proved.storage, &proved.record, outputs, &mut proved.answer),
                    entries::together(sheet, &fast.storage, &fast.record, outputs, &mut fast.answer),
                ];
                assert_eq!(numbers, [0, 0], "{name}");
                assert!(proved == fast, "{name}: a set of outputs after round {}", proved.record[0]);
                let tabled = book.together(outputs).map(|verdict| verdict as u8);
                let answers = [kept.together(outputs), journal.together(outputs), tabled];
                assert_eq!(answers, [Ok(proved.answer[0] as u8); 3], "{name}");
            }
            pairs += proved.storage[1028..2056].iter().map(|word| word.count_ones()).sum::<u32>();
        }
        let first = raw::close(sheet, &proved.storage, &mut proved.record, &mut proved.answer);
        let second = entries::close(sheet, &fast.storage, &mut fast.record, &mut fast.answer);
        assert_eq!((first, second), (0, 0), "{name}");
        assert!(proved == fast, "{name}: closing");
        let own = kept.close().expect("accepted by the others");
        let direct = journal.close().expect("accepted by the others");
        let tabled = book.close().expect("accepted by the others");
        for k in 0..n {
            let verdicts = [own.0[k] as u32, direct.0[k] as u32, tabled.verdicts[k] as u32];
            assert_eq!(verdicts, [proved.answer[k]; 3], "{name}: closing");
            assert_eq!([own.1[k], direct.1[k], tabled.shares[k]], [proved.answer[n + k]; 3], "{name}: closing");
        }
        pairs as f64 / heard.len() as f64
    }
}

/// A journal's rounds, so many of which are timed at once.
struct Stretches<'a> {
    heard: &'a [u64],
    length: usize,
}

impl Stretches<'_> {
    fn play(&self, parts: &mut Parts, mut take: impl FnMut(u64)) {
        parts.end_part();
        for stretch in self.heard.chunks(self.length) {
            stretch.iter().for_each(|&round| take(round));
            parts.end_part();
        }
    }

    /// The least time of a round, as the mean over a stretch, where stretches took so long.
    fn quickest(&self, times: &[f64]) -> f64 {
        let stretches = self.heard.chunks(self.length).zip(times);
        stretches.map(|(stretch, time)| time / stretch.len() as f64).fold(f64::INFINITY, f64::min)
    }
}

fn proved_preparation(sheet: &[u8], held: &mut Held) -> u32 {
    raw::prepare(sheet, &mut held.storage, &mut held.record, &mut held.answer)
}

fn fast_preparation(sheet: &[u8], held: &mut Held) -> u32 {
    entries::prepare(sheet, &mut held.storage, &mut held.record, &mut held.answer)
}

fn proved_round(sheet: &[u8], held: &mut Held, letters: u64) -> u32 {
    raw::round(sheet, &mut held.storage, &mut held.record, letters, &mut held.answer)
}

fn fast_round(sheet: &[u8], held: &mut Held, letters: u64) -> u32 {
    entries::round(sheet, &mut held.storage, &mut held.record, letters, &mut held.answer)
}

/// Takes a sheet, storage, a record and a set of outputs, and writes the answer.
type Ask = fn(&[u8], &[u64], &[u32], u8, &mut [u32]) -> u32;

/// Takes the number of inputs and two masks, and writes the set.
type MakeSet = fn(u8, u8, u8, &mut u64) -> u32;

/// Sets from the masks of rounds.
pub fn sets(effort: Effort, inputs: u8) -> SetTimes {
    let masks = workloads::masks(inputs, 1000);
    let sets: Vec<u64> = masks.iter().map(|heard| heard.set(inputs as usize).0).collect();
    let functions: [MakeSet; 3] = [raw::letters, entries::letters, plain_letters];
    let [mut proved, mut fast, mut plain] = functions.map(|function| {
        let rounds = masks.iter().zip(&sets);
        move || {
            // Called, not inlined, like the library's.
            let function = black_box(function);
            for (heard, &set) in rounds.clone() {
                let mut made = 0;
                let number = function(inputs, heard.known, heard.value, &mut made);
                assert_eq!((number, made), (0, set), "{heard:?} of {inputs} inputs");
            }
        }
    });
    let times = effort.shortest([&mut proved, &mut fast, &mut plain]);
    let [proved, fast, plain] = times.map(|time| time / masks.len() as f64);
    SetTimes { inputs, times: Times { proved, fast, plain } }
}

fn plain_letters(inputs: u8, known: u8, value: u8, letters: &mut u64) -> u32 {
    let made = Heard { known, value }.letters(inputs as usize);
    made.map(|set| *letters = set.0).err().unwrap_or(0)
}

pub fn evaluate(effort: Effort, workload: &Workload, rounds: usize) -> TraceTimes {
    let (sheet, name) = (&workload.sheet, workload.name);
    let letters = workloads::letters(workload, rounds);
    let expected = language::evaluate(sheet, &letters, rounds).expect("an accepted sheet");
    let (mut first, mut second) = (vec![0; rounds], vec![0; rounds]);
    assert_eq!((raw::evaluate(sheet, &letters, &mut first), &first), (0, &expected), "{name}");
    assert_eq!((trace::evaluate(sheet, &letters, &mut second), &second), (0, &expected), "{name}");
    let [proved, fast, plain] = effort.shortest([
        &mut || assert_eq!(raw::evaluate(sheet, &letters, &mut first), 0),
        &mut || assert_eq!(trace::evaluate(sheet, &letters, &mut second), 0),
        &mut || assert!(black_box(language::evaluate(sheet, &letters, rounds)).is_ok()),
    ]);
    TraceTimes { name, rounds, times: Times { proved, fast, plain } }
}

/// A rule of comparisons, and the same rule with these written out.
pub fn comparisons(effort: Effort) -> ComparisonTimes {
    let sheets = [workloads::comparisons_written_out(), workloads::comparisons()];
    let workloads = sheets.map(|sheet| Workload { name: "comparisons", sheet, rounds: 60 });
    let subjects = workloads.each_ref().map(Subject::new);
    let [written_out, compared] = &subjects;
    assert!(written_out.prepared == compared.prepared, "comparisons: preparation");
    let unheard = Unheard::Share(30);
    let heard = workloads::rounds(compared.workload, &compared.tabled, unheard);
    assert_eq!(written_out.same_answers(&heard), compared.same_answers(&heard), "comparisons: rounds");
    let [_, rounds] = TRACE_LENGTHS;
    let letters = &workloads::letters(compared.workload, rounds);
    let outputs = language::evaluate(&compared.workload.sheet, letters, rounds).expect("an accepted sheet");

    let sheets = workloads.each_ref().map(|workload| &workload.sheet);
    let [mut first, mut second] = sheets.map(|sheet| move || assert_eq!(raw::check(black_box(sheet)), 0));
    let check = effort.shortest([&mut first, &mut second]);
    let [mut first, mut second] = sheets.map(|sheet| {
        let mut held = Held::fresh();
        move || assert_eq!(proved_preparation(sheet, &mut held), 0)
    });
    let preparation = effort.shortest([&mut first, &mut second]);
    let stretches = compared.stretches(effort, &heard);
    let [mut first, mut second] =
        subjects.each_ref().map(|subject| |parts: &mut _| subject.play_proved(&stretches, parts));
    let journal = effort.shortest_by_parts([&mut first, &mut second]);
    let [mut first, mut second] = sheets.map(|sheet| {
        let mut out = vec![0; rounds];
        assert_eq!((raw::evaluate(sheet, letters, &mut out), &out), (0, &outputs), "comparisons: whole trace");
        move || assert_eq!(raw::evaluate(sheet, letters, &mut out), 0)
    });
    let trace = effort.shortest([&mut first, &mut second]);
    let round = journal.map(|time| time / heard.len() as f64);
    ComparisonTimes { check, preparation, unheard, round, rounds, trace }
}
