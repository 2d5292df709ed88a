//! The measurements as a document.

use crate::growth::Cost;
use crate::measure::{CheckTimes, ComparisonTimes, MonitorTimes, PreparationTimes, RoundTimes, SetTimes, TraceTimes};
use crate::program::{Timed, ROUNDS};
use crate::workloads::TRACE_LENGTHS;
use std::fmt::Write;
use std::fs;
use std::time::{SystemTime, UNIX_EPOCH};

/// A table in Markdown.
pub fn table(head: &[&str], rows: impl IntoIterator<Item = Vec<String>>) -> String {
    let line = |cells: &[String]| format!("| {} |\n", cells.join(" | "));
    let names: Vec<String> = head.iter().map(|name| name.to_string()).collect();
    let mut text = line(&names) + &line(&vec!["---".to_string(); head.len()]);
    rows.into_iter().for_each(|row| text += &line(&row));
    text
}

/// Three digits that count.
pub fn ratio(value: f64) -> String {
    match value {
        value if value < 9.995 => format!("{value:.2}"),
        value if value < 99.95 => format!("{value:.1}"),
        value => format!("{value:.0}"),
    }
}

fn seconds(value: f64) -> String {
    match value {
        value if value < 9.95e-9 => format!("{:.1} ns", value * 1e9),
        value if value < 1e-6 => format!("{:.0} ns", value * 1e9),
        value if value < 1e-3 => format!("{} µs", ratio(value * 1e6)),
        value if value < 1.0 => format!("{} ms", ratio(value * 1e3)),
        value => format!("{} s", ratio(value)),
    }
}

pub fn checks(all: &[CheckTimes]) -> String {
    table(
        &["sheet", "bytes", "proved : fast", "plain : proved", "proved, time here"],
        all.iter().map(|each| {
            let times = each.times;
            vec![
                each.name.to_string(),
                each.bytes.to_string(),
                ratio(times.proved / times.fast),
                ratio(times.plain / times.proved),
                seconds(times.proved),
            ]
        }),
    )
}

pub fn preparations(all: &[PreparationTimes]) -> String {
    table(
        &[
            "sheet",
            "inputs",
            "outputs",
            "live pairs",
            "reach",
            "proved : fast",
            "straightforward : proved",
            "tabled : proved",
            "proved, time here",
        ],
        all.iter().map(|each| {
            let times = each.times;
            vec![
                each.name.to_string(),
                each.inputs.to_string(),
                each.outputs.to_string(),
                each.live_pairs.to_string(),
                each.reach.to_string(),
                ratio(times.proved / times.fast),
                ratio(times.straightforward / times.proved),
                ratio(times.tabled / times.proved),
                seconds(times.proved),
            ]
        }),
    )
}

pub fn rounds(all: &[RoundTimes]) -> String {
    table(
        &[
            "sheet",
            "not heard",
            "pairs reached",
            "proved : fast",
            "proved : fast, sheet kept",
            "straightforward : proved",
            "tabled : proved",
            "proved, time of a round here",
        ],
        all.iter().map(|each| {
            let times = each.times;
            vec![
                each.name.to_string(),
                each.unheard.name(),
                format!("{:.0}", each.pairs),
                ratio(times.proved / times.fast),
                ratio(times.proved / each.kept),
                ratio(times.straightforward / times.proved),
                ratio(times.tabled / times.proved),
                seconds(times.proved),
            ]
        }),
    )
}

pub fn questions(all: &[RoundTimes]) -> String {
    table(
        &[
            "sheet",
            "not heard",
            "proved : fast",
            "question : round",
            "question : round of the quickest stretch",
            "proved, time of a question here",
        ],
        all.iter().map(|each| {
            let question = each.question;
            vec![
                each.name.to_string(),
                each.unheard.name(),
                ratio(question.proved / question.fast),
                ratio(question.proved / each.times.proved),
                ratio(question.proved / each.quickest),
                seconds(question.proved),
            ]
        }),
    )
}

pub fn sets(all: &[SetTimes]) -> String {
    table(
        &["inputs", "proved : fast", "plain : proved", "proved, time of a set here"],
        all.iter().map(|each| {
            let times = each.times;
            vec![
                each.inputs.to_string(),
                ratio(times.proved / times.fast),
                ratio(times.plain / times.proved),
                seconds(times.proved),
            ]
        }),
    )
}

pub fn traces(all: &[[TraceTimes; 2]]) -> String {
    table(
        &["sheet", "rounds", "proved : fast", "plain : proved", "proved, time here"],
        all.iter().flatten().map(|each| {
            let times = each.times;
            vec![
                each.name.to_string(),
                each.rounds.to_string(),
                ratio(times.proved / times.fast),
                ratio(times.plain / times.proved),
                seconds(times.proved),
            ]
        }),
    )
}

pub fn comparisons(times: &ComparisonTimes) -> String {
    let row =
        |what: String, [written_out, compared]: [f64; 2]| vec![what, ratio(written_out / compared), seconds(compared)];
    table(
        &["what is timed", "written out : compared", "compared, time here"],
        [
            row("check of the sheet".to_string(), times.check),
            row("preparation".to_string(), times.preparation),
            row(format!("a round, {} not heard", times.unheard.name()), times.round),
            row(format!("a whole trace of {} rounds", times.rounds), times.trace),
        ],
    )
}

pub fn program(timed: &Result<Vec<Timed>, String>) -> String {
    let row = |timed: &Timed| {
        let name = format!("session, {ROUNDS} rounds");
        vec![name, timed.name(), ratio(timed.proved / timed.fast), seconds(timed.proved)]
    };
    match timed {
        Ok(timed) => table(&["journal", "not heard", "proved : fast", "proved, time here"], timed.iter().map(row)),
        Err(missing) => format!("Not timed: {missing}.\n"),
    }
}

/// Costs of rounds as multiples of the first one's.
pub fn round_costs(what: &str, all: &[Cost]) -> String {
    table(
        &[what, "pairs reached", "a round"],
        all.iter().map(|Cost { amount, times }| {
            vec![amount.to_string(), format!("{:.0}", times.pairs), ratio(times.round / all[0].times.round)]
        }),
    )
}

/// The same with preparation.
pub fn costs(what: &str, all: &[Cost]) -> String {
    table(
        &[what, "pairs reached", "preparation", "a round"],
        all.iter().map(|Cost { amount, times }| {
            vec![
                amount.to_string(),
                format!("{:.0}", times.pairs),
                ratio(times.preparation / all[0].times.preparation),
                ratio(times.round / all[0].times.round),
            ]
        }),
    )
}

pub fn lengths(all: &[(usize, f64)]) -> String {
    table(
        &["rounds before", "a round"],
        all.iter().map(|(rounds, seconds)| vec![rounds.to_string(), ratio(seconds / all[0].1)]),
    )
}

/// The most of proved : fast.
const MOST_OVER_FAST: f64 = 1.3;
/// The least of straightforward : proved.
const LEAST_SPEED: f64 = 30.0;
/// The most of a longer trace : a shorter one.
const MOST_GROWTH: f64 = 5.0;
/// The most of the proved program : the unproved one.
const MOST_OVER_PROGRAM: f64 = 1.5;

/// A ratio, and what it was found on.
type Found = (f64, String);

/// The targets, and how far this run met them.
pub fn targets(
    preparations: &[PreparationTimes],
    rounds: &[RoundTimes],
    traces: &[[TraceTimes; 2]],
    program: &Result<Vec<Timed>, String>,
) -> String {
    let prepared = |fewest_streams: usize, ratio: fn(MonitorTimes) -> f64| -> Vec<Found> {
        let sheets = preparations.iter().filter(|each| each.inputs + each.outputs >= fewest_streams);
        sheets.map(|each| (ratio(each.times), each.name.to_string())).collect()
    };
    let name = |each: &RoundTimes| format!("{}, {} not heard", each.name, each.unheard.name());
    let heard = |fewest_streams: usize, ratio: fn(MonitorTimes) -> f64| -> Vec<Found> {
        let journals = rounds.iter().filter(|each| each.streams >= fewest_streams);
        journals.map(|each| (ratio(each.times), name(each))).collect()
    };
    let asked =
        |ratio: fn(&RoundTimes) -> f64| -> Vec<Found> { rounds.iter().map(|each| (ratio(each), name(each))).collect() };
    let over_fast = |times: MonitorTimes| times.proved / times.fast;
    let of_straightforward = |times: MonitorTimes| times.straightforward / times.proved;
    let longer = |[short, long]: &[TraceTimes; 2]| (long.times.proved / short.times.proved, long.name.to_string());
    let timed = |timed: &Timed| (timed.proved / timed.fast, format!("session, {} not heard", timed.name()));
    let [short, long] = TRACE_LENGTHS;
    [
        target(
            format!(
                "Proved takes at most {MOST_OVER_FAST} times as long as fast, in preparation, in rounds and in \
                 questions about a set of outputs."
            ),
            |ratio| ratio <= MOST_OVER_FAST,
            &[
                ("preparation", prepared(0, over_fast)),
                ("rounds", heard(0, over_fast)),
                ("questions", asked(|each| each.question.proved / each.question.fast)),
            ],
        ),
        target(
            "A question about all outputs takes proved at most as long as a round of the same journal.".to_string(),
            |ratio| ratio <= 1.0,
            &[
                ("rounds", asked(|each| each.question.proved / each.times.proved)),
                ("rounds of the quickest stretch", asked(|each| each.question.proved / each.quickest)),
            ],
        ),
        target(
            format!("Proved is at least {LEAST_SPEED} times as fast as straightforward on sheets of 8 streams."),
            |ratio| ratio >= LEAST_SPEED,
            &[("preparation", prepared(8, of_straightforward)), ("rounds", heard(8, of_straightforward))],
        ),
        target(
            format!(
                "A whole trace of {long} rounds takes proved at most {MOST_GROWTH} times as long as one of {short}."
            ),
            |ratio| ratio <= MOST_GROWTH,
            &[("whole traces", traces.iter().map(longer).collect())],
        ),
        target(
            format!("The program `journal` takes at most {MOST_OVER_PROGRAM} times as long as the unproved one."),
            |ratio| ratio <= MOST_OVER_PROGRAM,
            &[("program", program.iter().flatten().map(timed).collect())],
        ),
    ]
    .concat()
}

/// How the times of the formula stand beside those that source document 004 tells of its prototype, and, where
/// the check of the sheet alone takes longer than that target allows, what keeps a round on few pairs from it.
pub fn beside(checks: &[CheckTimes], preparations: &[PreparationTimes], rounds: &[RoundTimes]) -> String {
    let check = checks.iter().find(|each| each.name == "formula").expect("a workload").times.proved;
    let preparation = preparations.iter().find(|each| each.name == "formula").expect("a workload").times.proved;
    let formula = || rounds.iter().filter(|each| each.name == "formula");
    let slowest = formula().map(|each| each.times.proved).fold(0.0, f64::max);
    let quickest = formula().map(|each| each.times.straightforward).fold(f64::INFINITY, f64::min);
    let mut text = format!(
        "Source document 004, section 5, tells of its prototype that on the formula, in 12 streams, its emptiness check took 2.2 s\n\
         and an event 1.8 to 5.6 ms, on a processor of 1.8 GHz. Here, in 8 streams, preparation takes {} and a round at most {}.\n",
        seconds(preparation),
        seconds(slowest),
    );
    if check > quickest / LEAST_SPEED {
        text += &format!(
            "\nWhere a journal keeps few pairs the straightforward monitor is quick as well: on the formula its rounds take {} at\n\
             least, and a {LEAST_SPEED}th of that is {}. A call of the library first checks the bytes of its sheet, which takes {} here,\n\
             and it goes over sets of 8 KB: {LEAST_SPEED} times as fast can't be had there by the calls as they are.\n",
            seconds(quickest),
            seconds(quickest / LEAST_SPEED),
            seconds(check),
        );
    }
    text
}

/// A sentence, whether all ratios meet it, and for each group how many do, and the smallest and the
/// largest.
fn target(sentence: String, met: impl Fn(f64) -> bool, groups: &[(&str, Vec<Found>)]) -> String {
    let all: Vec<&Found> = groups.iter().flat_map(|(_, found)| found).collect();
    let outcome = match all[..] {
        [] => "Not measured",
        _ if all.iter().all(|(value, _)| met(*value)) => "Met",
        _ => "Not met",
    };
    let mut text = format!("- {sentence} **{outcome}.**\n");
    for (name, found) in groups {
        let mut sorted: Vec<&Found> = found.iter().collect();
        sorted.sort_by(|one, other| one.0.total_cmp(&other.0));
        let count = found.iter().filter(|(value, _)| met(*value)).count();
        let shown = |(value, on): &Found| format!("{} ({on})", ratio(*value));
        text += &match sorted[..] {
            [] => String::new(),
            [only] => format!("  - {name}: {}\n", shown(only)),
            [least, .., most] => {
                format!("  - {name}: {count} of {} meet it; from {} to {}\n", found.len(), shown(least), shown(most))
            }
        };
    }
    text
}

/// The kind of machine and today's date.
pub fn setting() -> String {
    let processor = fs::read_to_string("/proc/cpuinfo").unwrap_or_default();
    let model = processor.lines().find_map(|line| line.strip_prefix("model name")?.split_once(": "));
    let kind = model.map_or("a processor that does not tell its name", |(_, name)| name);
    let cores = std::thread::available_parallelism().map_or(1, |count| count.get());
    let mut text = String::new();
    let days = SystemTime::now().duration_since(UNIX_EPOCH).map_or(0, |since| since.as_secs() / 86_400);
    let (year, month, day) = civil(days as i64);
    write!(text, "{year}-{month:02}-{day:02}, {kind}, {cores} cores, {}", std::env::consts::ARCH)
        .expect("a string takes everything");
    text
}

/// Year, month and day of a number of days since 1 January 1970, by the rule of leap years.
fn civil(days: i64) -> (i64, u32, i64) {
    let leap = |year: i64| (year % 4 == 0 && year % 100 != 0) || year % 400 == 0;
    let (mut year, mut left) = (1970, days);
    while left >= 365 + leap(year) as i64 {
        left -= 365 + leap(year) as i64;
        year += 1;
    }
    let lengths = [31, 28 + leap(year) as i64, 31, 30, 31, 30, 31, 31, 30, 31, 30, 31];
    let mut month = 0;
    while left >= lengths[month] {
        left -= lengths[month];
        month += 1;
    }
    (year, month as u32 + 1, left + 1)
}

#[cfg(test)]
mod tests {
    use super::*;

    #[test]
    fn dates() {
        assert_eq!(civil(0), (1970, 1, 1));
        assert_eq!(civil(59), (1970, 3, 1));
        assert_eq!(civil(11_016), (2000, 2, 29));
        assert_eq!(civil(20_454), (2026, 1, 1));
    }

    #[test]
    fn targets_by_hand() {
        let met = |found: &[f64]| {
            let found = found.iter().map(|&ratio| (ratio, format!("sheet {ratio}"))).collect();
            target("At most 2.".to_string(), |ratio| ratio <= 2.0, &[("rounds", found)])
        };
        assert_eq!(met(&[]), "- At most 2. **Not measured.**\n");
        assert_eq!(met(&[1.5]), "- At most 2. **Met.**\n  - rounds: 1.50 (sheet 1.5)\n");
        let found = met(&[2.0, 2.5, 0.5]);
        let expected = "  - rounds: 2 of 3 meet it; from 0.50 (sheet 0.5) to 2.50 (sheet 2.5)\n";
        assert_eq!(found, format!("- At most 2. **Not met.**\n{expected}"));
    }

    #[test]
    fn digits() {
        assert_eq!([0.456, 9.99, 12.34, 1234.5].map(ratio), ["0.46", "9.99", "12.3", "1234"]);
    }
}
