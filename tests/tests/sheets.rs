//! The library's check of sheets against the outside reader and the definition of circular.

use outside::random::{self, Random};
use outside::sheet::{self, byte_of_read, with_version, write, write_version, HEADER, NO_ASSUMPTION};
use outside::{cases, circular, hex, library, versions};

/// Compares the two and returns the number they agree on.
fn agree(sheet: &[u8]) -> u32 {
    let expected = circular::accept(sheet).err().unwrap_or(0);
    assert_eq!(library::check(sheet), expected, "sheet {}", hex(sheet));
    expected
}

#[test]
fn explicit_sheets() {
    for case in cases::sheets() {
        assert_eq!(library::check(&case.sheet), case.number, "{}: {}", case.name, hex(&case.sheet));
    }
}

#[test]
fn random_sheets() {
    let mut random = Random::new(1);
    let mut seen = [0; 11];
    for _ in 0..20_000 {
        seen[agree(&random::well_formed(&mut random)) as usize] += 1;
    }
    for _ in 0..60_000 {
        seen[agree(&random::damaged(&mut random)) as usize] += 1;
    }
    assert!(seen.iter().all(|&times| times >= 500), "{seen:?}");
}

#[test]
fn random_circles() {
    let mut random = Random::new(2);
    let mut seen = [0; 11];
    for _ in 0..10_000 {
        seen[agree(&random::sparse(&mut random)) as usize] += 1;
        seen[agree(&random::two_rings(&mut random)) as usize] += 1;
        seen[agree(&random::zigzag(&mut random)) as usize] += 1;
    }
    assert!(seen[0] >= 5000 && seen[10] >= 5000, "{seen:?}");
}

/// Every choice of reads between two outputs, 12 of them, joined by disjunctions.
#[test]
fn all_reads_between_two_outputs() {
    for choice in 0..1u32 << 12 {
        let expression = |output: u32| {
            let mut bytes = vec![0x40];
            for read in (0..6).filter(|read| choice >> (6 * output + read) & 1 == 1) {
                let default = (choice + read) % 2 == 1;
                bytes.extend([byte_of_read(1 + read as usize / 3, (read % 3) as i64 - 1, default), 0x04]);
            }
            bytes
        };
        agree(&write(1, NO_ASSUMPTION, &[expression(0), expression(1)]));
    }
}

#[test]
fn every_prefix_and_extension() {
    let mut random = Random::new(3);
    let mut sheets = vec![cases::session_sheet(), cases::longest(), cases::plain(1, &["41"])];
    sheets.extend([cases::shop_sheet(), cases::longest_comparing()]);
    sheets.extend((0..60).map(|_| random::well_formed(&mut random)));
    for sheet in sheets {
        // The rest of the sheet still follows in memory, beyond the length handed over.
        for length in 0..sheet.len() {
            let number = agree(&sheet[..length]);
            assert!((1..=8).contains(&number));
        }
        for more in [1, 2, 65, 1000, 70_000] {
            let extended = [sheet.clone(), random.bytes(more)].concat();
            assert_eq!(agree(&extended), 9);
        }
    }
}

#[test]
fn every_value_of_each_header_byte() {
    let first = [cases::session_sheet(), cases::plain(1, &["40"]), cases::longest(), cases::plain(6, &["40", "46"])];
    for sheet in first.into_iter().chain([cases::shop_sheet(), cases::longest_comparing()]) {
        for place in 0..8 {
            for byte in 0..=255 {
                let mut changed = sheet.clone();
                changed[place] = byte;
                agree(&changed);
            }
        }
    }
}

#[test]
fn every_version() {
    for version in 0..=u16::MAX {
        for (sheet, in_version_1) in [(cases::session_sheet(), 0), (cases::shop_sheet(), 7)] {
            let expected = match version {
                1 => in_version_1,
                2 => 0,
                _ => 3,
            };
            assert_eq!(agree(&with_version(&sheet, version)), expected, "version {version}");
        }
    }
}

/// Sheets that say the same in both versions.
#[test]
fn twins() {
    let mut random = Random::new(4);
    let mut seen = [0; 11];
    for _ in 0..8000 {
        let [first, second] = versions::twins(&mut random, random::well_formed);
        let number = agree(&second);
        assert_eq!(agree(&first), number, "sheets {} and {}", hex(&first), hex(&second));
        seen[number as usize] += 1;
    }
    assert!(seen[0] >= 1000 && seen[10] >= 1000, "{seen:?}");
}

/// Sheets in both versions: one that compares two values is unknown to version 1, and all others say
/// the same.
#[test]
fn both_versions() {
    let mut random = Random::new(5);
    let mut comparing = 0;
    for _ in 0..10_000 {
        let bytes = random::well_formed(&mut random);
        let [first, second] = [1, 2].map(|version| with_version(&bytes, version));
        let compares = sheet::read(&second).expect("made to break no rule below 10").compares();
        let number = agree(&second);
        assert_eq!(agree(&first), if compares { 7 } else { number }, "sheet {}", hex(&second));
        comparing += compares as usize;
    }
    assert!(comparing >= 2000, "{comparing}");
}

/// The same with faults: only a byte 05 tells the versions apart, and only by rule 7.
#[test]
fn both_versions_of_damaged_sheets() {
    let mut random = Random::new(6);
    let mut apart = 0;
    for _ in 0..20_000 {
        let bytes = random::damaged(&mut random);
        if bytes.len() < HEADER {
            continue;
        }
        let [first, second] = [1, 2].map(|version| agree(&with_version(&bytes, version)));
        let may_differ = first == 7 && bytes[HEADER..].contains(&0x05);
        assert!(first == second || may_differ, "{first} and {second}, sheet {}", hex(&bytes));
        apart += (first != second) as usize;
    }
    assert!(apart >= 2000, "{apart}");
}

#[test]
fn every_pair_of_counts() {
    for inputs in 0..=255 {
        for outputs in 0..=255 {
            let sheet = cases::counts(inputs, outputs, NO_ASSUMPTION);
            let number = agree(&sheet);
            let fits = (1..=6).contains(&inputs) && (1..=7).contains(&outputs) && inputs + outputs <= 8;
            assert_eq!(number, if fits { 0 } else { 4 });
        }
    }
}

#[test]
fn every_length_byte() {
    let negated = [vec![0x40], vec![0x02; 255]].concat();
    let compared = [vec![0x40], [0x40, 0x05].repeat(127)].concat();
    for length in 0..=255 {
        for body in [vec![], vec![0x40], vec![0x40; 64], negated.clone(), compared.clone()] {
            for (outputs, version) in [(1, 1), (2, 1), (1, 2), (2, 2)] {
                let header = with_version(&cases::counts(1, outputs, NO_ASSUMPTION)[..HEADER], version);
                agree(&[header, vec![length], body.clone()].concat());
            }
        }
    }
}

/// Compares the two in both versions.
fn agree_in_both(inputs: u8, expressions: &[Vec<u8>]) {
    for version in [1, 2] {
        agree(&write_version(version, inputs, NO_ASSUMPTION, expressions));
    }
}

/// All expressions of one byte for all sizes, and all of two bytes for one input and one output.
#[test]
fn every_short_expression() {
    for inputs in 1..=6 {
        for outputs in 1..=(8 - inputs).min(7) {
            for byte in 0..=255 {
                let mut expressions = vec![vec![0x40]; outputs as usize];
                expressions[outputs as usize - 1] = vec![byte];
                agree_in_both(inputs, &expressions);
            }
        }
    }
    for first in 0..=255 {
        for second in 0..=255 {
            agree_in_both(1, &[vec![first, second]]);
        }
    }
}

/// The number of a byte behind so many values, with so many conjunctions after it, where there are one
/// input and one output.
fn number_behind(version: u16, byte: u8, values: usize, conjunctions: usize) -> u32 {
    let taken = match byte {
        0x00 | 0x01 | 0x40 | 0x41 | 0x50 | 0x51 | 0x58 | 0x59 | 0x60 | 0x61 | 0x68 | 0x69 => 0,
        0x02 => 1,
        0x03 | 0x04 => 2,
        0x05 if version == 2 => 2,
        _ => return 7,
    };
    // It leaves a value, and each conjunction makes one of two.
    if values != taken + conjunctions {
        return 8;
    }
    // With 41 the output reads itself.
    if byte == 0x41 {
        10
    } else {
        0
    }
}

#[test]
fn every_byte_behind_values() {
    for byte in 0..=255 {
        for values in 0..=3 {
            for conjunctions in 0..=3 {
                let expression = [vec![0x40; values], vec![byte], vec![0x03; conjunctions]].concat();
                for version in [1, 2] {
                    let number = agree(&write_version(version, 1, NO_ASSUMPTION, std::slice::from_ref(&expression)));
                    let expected = number_behind(version, byte, values, conjunctions);
                    assert_eq!(number, expected, "version {version}, expression {}", hex(&expression));
                }
            }
        }
    }
}

/// All expressions of four bytes drawn from operators, operands, unknown bytes and a stream too high:
/// the first byte that breaks rule 7 or 8 decides.
#[test]
fn every_order_of_faulty_bytes() {
    let alphabet = [0x00, 0x02, 0x03, 0x04, 0x05, 0x06, 0x40, 0x42, 0x51, 0x61];
    let pick = |number: usize, place: u32| alphabet[number / alphabet.len().pow(place) % alphabet.len()];
    for number in 0..alphabet.len().pow(4) {
        let expression: Vec<u8> = (0..4).map(|place| pick(number, place)).collect();
        agree_in_both(1, &[expression]);
    }
}
