//! The exact reach that the library's preparation answers, against its definition.

use outside::journal::{Held, STORAGE_WORDS};
use outside::letters::LetterSet;
use outside::monitor::{by_trying, lists, starts_a_list, Monitor, Verdict};
use outside::pairs::{Pairs, SET_WORDS};
use outside::random::{self, Random};
use outside::sheet::Sheet;
use outside::{cases, circular, hex, library};

/// What the answer holds where no call has written.
const UNWRITTEN: u32 = 0xDEAD_BEEF;

/// Lends anything for storage and record, and prepares.
fn prepare(random: &mut Random, sheet: &[u8]) -> (u32, Held) {
    let mut held = Held { answer: vec![UNWRITTEN; 16], ..Held::fresh() };
    random.fill(&mut held.storage);
    held.record.fill(UNWRITTEN);
    (again(sheet, &mut held), held)
}

fn again(sheet: &[u8], held: &mut Held) -> u32 {
    library::prepare(sheet, &mut held.storage, &mut held.record, &mut held.answer)
}

/// The live count and the reach, which is less, of an accepted preparation; the rest of the answer is left
/// alone.
fn numbers(held: &Held) -> [usize; 2] {
    assert_eq!(held.answer[2..], [UNWRITTEN; 14]);
    let [live, reach] = [0, 1].map(|number| held.answer[number] as usize);
    assert!(reach < live && live <= 65_792, "{reach}, {live}");
    [live, reach]
}

fn size(sheet: &Sheet) -> usize {
    1 << (sheet.inputs + sheet.outputs())
}

/// The fewest valuations of a list that makes the pair live, if at most so many do.
fn fewest(sheet: &Sheet, (a, b): (usize, usize), most: usize) -> Option<usize> {
    if b == size(sheet) {
        return Some(0);
    }
    (1..=most).find(|&longest| starts_a_list(sheet, a, b, longest))
}

/// By the lists themselves: one of at most so many valuations from each live pair, and from one of them no
/// shorter one. A longer one leads nowhere else.
#[test]
fn by_trying_lists() {
    let mut random = Random::new(1301);
    let mut seen = [0; 6];
    for _ in 0..600 {
        let bytes = random::small(&mut random, 3);
        let sheet = circular::accept(&bytes).unwrap();
        let (number, held) = prepare(&mut random, &bytes);
        assert_eq!(number, 0);
        let [_, reach] = numbers(&held);
        let live = Pairs::from_words(size(&sheet), &held.storage[..SET_WORDS]).all();
        let needed: Vec<Option<usize>> = live.iter().map(|&pair| fewest(&sheet, pair, reach)).collect();
        assert!(needed.iter().all(Option::is_some), "{reach} is not enough: {}", hex(&bytes));
        assert_eq!(needed.iter().max(), Some(&Some(reach)), "{}", hex(&bytes));
        let others = (0..size(&sheet)).flat_map(|a| (0..size(&sheet)).map(move |b| (a, b)));
        for (a, b) in others.filter(|pair| !live.contains(pair)) {
            let assumed = live.contains(&(a, size(&sheet)));
            assert!(!assumed || !starts_a_list(&sheet, a, b, reach + 2), "({a}, {b}) of {}", hex(&bytes));
        }
        seen[reach.min(5)] += 1;
    }
    assert!(seen.iter().take(4).all(|&times| times >= 5), "{seen:?}");
}

/// Rounds that can be completed can be completed with at most so many more, some of them not with none, and
/// a few not with fewer than all.
#[test]
fn completions_within_it() {
    let mut random = Random::new(1302);
    let (mut broken, mut some_needed, mut all_needed) = (0, 0, 0);
    for _ in 0..1500 {
        let bytes = match random.below(4) {
            0 => cases::counter_to(2, random.below(4)),
            _ => random::small(&mut random, 4),
        };
        let sheet = circular::accept(&bytes).unwrap();
        let (number, mut held) = prepare(&mut random, &bytes);
        assert_eq!(number, 0);
        let [_, reach] = numbers(&held);
        let mut rounds: Vec<LetterSet> = vec![];
        for _ in 0..random.range(1, 4) {
            rounds.push(random.round(sheet.inputs, 30));
            if lists(&sheet, &rounds, reach + 1) > 512 {
                break;
            }
            let letters = rounds.last().unwrap().0;
            let lent = (&mut held.storage, &mut held.record, &mut held.answer);
            assert_eq!(library::round(&bytes, lent.0, lent.1, letters, lent.2), 0);
            let none = |further: usize| by_trying(&sheet, &rounds, 0..=further)[0] == Verdict::Broken;
            assert_eq!(held.answer[0] == Verdict::Broken as u32, none(reach), "{rounds:?} of {}", hex(&bytes));
            assert_eq!(none(reach), none(reach + 1), "{rounds:?} of {}", hex(&bytes));
            broken += none(reach) as usize;
            some_needed += (!none(reach) && none(0)) as usize;
            all_needed += (reach > 0 && !none(reach) && none(reach - 1)) as usize;
        }
    }
    assert!(broken >= 100 && some_needed >= 50 && all_needed >= 1, "{broken}, {some_needed}, {all_needed}");
}

/// Counters that may end at one value alone: from the value after it, the way round is the longest.
#[test]
fn counters() {
    let mut random = Random::new(1303);
    for bits in 1..=6 {
        for _ in 0..4 {
            let sheet = cases::counter_to(bits, random.below(1 << bits));
            let (number, held) = prepare(&mut random, &sheet);
            let valuations = 2 << bits;
            assert_eq!((number, numbers(&held)), (0, [valuations + 2 * valuations, 1 << bits]), "{}", hex(&sheet));
        }
    }
}

/// Hundreds and thousands of layers, on whatever the storage held, and once more behind rounds of a journal.
#[test]
fn deep_sheets() {
    let mut random = Random::new(1304);
    for (inputs, deepest) in [(2, 14), (3, 62), (4, 62), (5, 888), (6, 3254)] {
        let sheet = cases::register_of(inputs);
        let monitor = Monitor::new(&sheet).unwrap();
        assert_eq!(monitor.reach, deepest);
        for _ in 0..3 {
            let (number, mut held) = prepare(&mut random, &sheet);
            let found = numbers(&held);
            assert_eq!((number, found), (0, [monitor.live.count(), deepest]));
            for _ in 0..5 {
                let letters = random.round(inputs, 50).0;
                let lent = (&mut held.storage, &mut held.record, &mut held.answer);
                assert_eq!(library::round(&sheet, lent.0, lent.1, letters, lent.2), 0);
            }
            held.answer.fill(UNWRITTEN);
            assert_eq!((again(&sheet, &mut held), numbers(&held)), (0, found));
        }
    }
}

/// Two preparations answer the same, whatever was lent to them.
#[test]
fn storage_is_forgotten() {
    let mut random = Random::new(1305);
    let mut seen = [0; 4];
    for _ in 0..400 {
        let sheet = random::accepted(&mut random);
        let [first, second] = [0, 1].map(|_| prepare(&mut random, &sheet));
        assert!(first == second, "{}", hex(&sheet));
        assert_eq!(first.0, 0);
        seen[numbers(&first.1)[1].min(3)] += 1;
    }
    assert!(seen.iter().all(|&times| times >= 5), "{seen:?}");
}

/// A refused preparation leaves all that was lent as it was, by the sheet's rules first, then 15; wrong sizes
/// come before them.
#[test]
fn refused_preparations() {
    let mut random = Random::new(1306);
    let mut numbers = [0; 256];
    for _ in 0..3000 {
        let sheet = if random.one_in(3) { random::accepted(&mut random) } else { random::damaged(&mut random) };
        let mut held = Held {
            storage: vec![0; random.pick(&[0, 1, STORAGE_WORDS - 1, STORAGE_WORDS])],
            record: vec![UNWRITTEN; random.pick(&[30, 30, 30, 29, 31, 0])],
            answer: vec![UNWRITTEN; random.pick(&[16, 16, 20, 15, 1, 0])],
        };
        random.fill(&mut held.storage);
        let before = held.clone();
        let sheets_own = circular::accept(&sheet).err().unwrap_or(0);
        let short = if held.storage.len() < STORAGE_WORDS { 15 } else { 0 };
        let expected = match sheets_own {
            _ if held.record.len() != 30 || held.answer.len() < 16 => 255,
            0 => short,
            refused => refused,
        };
        assert_eq!(again(&sheet, &mut held), expected, "{}", hex(&sheet));
        assert!(expected == 0 || held == before, "{expected}: {}", hex(&sheet));
        numbers[expected as usize] += 1;
    }
    for number in [0, 4, 15, 255] {
        assert!(numbers[number] >= 20, "{number}: {:?}", &numbers[..16]);
    }
}
