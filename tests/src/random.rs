//! Random sheets, letters and rounds from a fixed start, so that every run makes the same ones.

use crate::journal::Book;
use crate::letters::{Heard, LetterSet};
use crate::sheet::{byte_of_read, write, write_version, HEADER, LONGEST_EXPRESSION, NO_ASSUMPTION};

/// Marsaglia's xorshift generator on 64 bits, its output multiplied by an odd constant.
pub struct Random {
    state: u64,
}

impl Random {
    pub fn new(seed: u64) -> Random {
        let mut random = Random { state: seed.wrapping_mul(0x9E37_79B9_7F4A_7C15) | 1 };
        for _ in 0..8 {
            random.next();
        }
        random
    }

    fn next(&mut self) -> u64 {
        self.state ^= self.state >> 12;
        self.state ^= self.state << 25;
        self.state ^= self.state >> 27;
        self.state.wrapping_mul(0x2545_F491_4F6C_DD1D)
    }

    /// A number below `bound`.
    pub fn below(&mut self, bound: usize) -> usize {
        (((self.next() >> 32) * bound as u64) >> 32) as usize
    }

    /// A number from `low` to `high`, both included.
    pub fn range(&mut self, low: usize, high: usize) -> usize {
        low + self.below(high - low + 1)
    }

    /// True once in `times`.
    pub fn one_in(&mut self, times: usize) -> bool {
        self.below(times) == 0
    }

    pub fn byte(&mut self) -> u8 {
        self.below(256) as u8
    }

    pub fn bytes(&mut self, count: usize) -> Vec<u8> {
        (0..count).map(|_| self.byte()).collect()
    }

    pub fn pick<T: Copy>(&mut self, from: &[T]) -> T {
        from[self.below(from.len())]
    }

    /// Letters of a sheet with so many inputs.
    pub fn letters(&mut self, inputs: usize, rounds: usize) -> Vec<u8> {
        (0..rounds).map(|_| self.below(1 << inputs) as u8).collect()
    }

    /// A letter of so many inputs.
    pub fn letter(&mut self, inputs: usize) -> u8 {
        self.below(1 << inputs) as u8
    }

    /// A letter that leaves the journal a completion, if there is one.
    pub fn letter_along(&mut self, book: &Book) -> u8 {
        match &book.letters_ahead()[..] {
            [] => self.letter(book.inputs()),
            letters => self.pick(letters),
        }
    }

    /// Masks in which about so many of a hundred inputs were not heard.
    pub fn heard(&mut self, inputs: usize, unknown: usize) -> Heard {
        let letter = self.letter(inputs);
        self.heard_of(letter, inputs, unknown)
    }

    /// The same with a letter that leaves the journal a completion, if there is one.
    pub fn heard_along(&mut self, book: &Book, unknown: usize) -> Heard {
        let letter = self.letter_along(book);
        self.heard_of(letter, book.inputs(), unknown)
    }

    /// Masks that this letter matches.
    pub fn heard_of(&mut self, letter: u8, inputs: usize, unknown: usize) -> Heard {
        let bits = (0..inputs).map(|input| ((self.below(100) >= unknown) as u8) << input);
        let known = bits.sum();
        Heard { known, value: letter & known }
    }

    /// Any masks at all, most of which rule 11 turns down.
    pub fn masks(&mut self) -> Heard {
        Heard { known: self.byte(), value: self.byte() }
    }

    /// A round whose set is made from masks, is the union of some of these, or has any letters. About so
    /// many of a hundred inputs, or of the other letters, are left open.
    pub fn round(&mut self, inputs: usize, unknown: usize) -> LetterSet {
        let letter = self.letter(inputs);
        self.round_of(letter, inputs, unknown)
    }

    /// The same with a letter that leaves the journal a completion, if there is one.
    pub fn round_along(&mut self, book: &Book, unknown: usize) -> LetterSet {
        let letter = self.letter_along(book);
        self.round_of(letter, book.inputs(), unknown)
    }

    /// The same with this letter.
    pub fn round_of(&mut self, letter: u8, inputs: usize, unknown: usize) -> LetterSet {
        let masked = self.heard_of(letter, inputs, unknown).set(inputs);
        match self.below(3) {
            0 => masked,
            1 => (0..self.range(1, 3)).fold(masked, |set, _| set.union(self.heard(inputs, unknown).set(inputs))),
            _ => (0..1 << inputs).filter(|&other| other == letter as usize || self.below(100) < unknown).collect(),
        }
    }

    /// Any number at all, most of which rule 21 turns down if there are few inputs.
    pub fn any_set(&mut self, inputs: usize) -> LetterSet {
        LetterSet(match self.below(4) {
            0 => 0,
            1 => 1 << self.below(64),
            2 => 1 << self.below(64) | self.round(inputs, 50).0,
            _ => self.next(),
        })
    }

    /// A line of two alternatives or more that stands for this set: as many as it takes to have every
    /// letter, and some of them again, in any order.
    pub fn alternatives(&mut self, inputs: usize, letters: LetterSet) -> String {
        let (mut parts, mut left) = (Vec::new(), letters.letters());
        while !left.is_empty() {
            let letter = self.pick(&left);
            let heard = self.heard_within(inputs, letter, letters);
            left.retain(|&letter| !heard.matches(letter as usize));
            parts.push(heard);
        }
        for _ in 0..self.range((parts.len() == 1) as usize, 2) {
            parts.push(self.pick(&parts));
        }
        let order = self.shuffled(parts.len());
        let marks: Vec<String> = order.into_iter().map(|place| parts[place].marks(inputs)).collect();
        marks.join("|")
    }

    /// Masks that this letter matches, and none that is not in the set.
    fn heard_within(&mut self, inputs: usize, letter: u8, letters: LetterSet) -> Heard {
        let with = |known: u8| Heard { known, value: letter & known };
        let mut heard = with((1 << inputs) - 1);
        for input in self.shuffled(inputs) {
            let wider = with(heard.known & !(1 << input));
            if !self.one_in(3) && letters.includes(wider.set(inputs)) {
                heard = wider;
            }
        }
        heard
    }

    /// Numbers without any order.
    pub fn fill(&mut self, words: &mut [u64]) {
        words.iter_mut().for_each(|word| *word = self.next());
    }

    /// The numbers below `count` in some order.
    fn shuffled(&mut self, count: usize) -> Vec<usize> {
        let mut order: Vec<usize> = (0..count).collect();
        for place in (1..count).rev() {
            order.swap(place, self.below(place + 1));
        }
        order
    }
}

/// A journal of so many lines of which about a third are blank, and the same with as many unknown marks as
/// there are inputs for each blank line before the closing.
pub fn with_blank_lines(random: &mut Random, inputs: usize, lines: usize) -> [Vec<u8>; 2] {
    let mut journals = [Vec::new(), Vec::new()];
    let (unknown, mut closed) = (random.pick(&[0, 30, 60]), false);
    for _ in 0..lines {
        let letters = random.round(inputs, unknown);
        let line = match random.below(30) {
            0 => ".".to_string(),
            1..=10 => String::new(),
            11..=20 => random.heard(inputs, unknown).marks(inputs),
            _ => random.alternatives(inputs, letters),
        };
        closed |= line == ".";
        let spelled_out = if line.is_empty() && !closed { "?".repeat(inputs) } else { line.clone() };
        journals[0].push(line);
        journals[1].push(spelled_out);
    }
    // A blank line that lacks its line feed would be none.
    let end = if journals[0].last().is_none_or(String::is_empty) { "\n" } else { random.pick(&["\n", ""]) };
    journals.map(|lines| (lines.join("\n") + end).into_bytes())
}

/// Counts in their ranges: inputs, then outputs.
fn sizes(random: &mut Random) -> (usize, usize) {
    let outputs = random.range(1, 7);
    (random.range(1, (8 - outputs).min(6)), outputs)
}

fn assumption(random: &mut Random, outputs: usize) -> u8 {
    if random.one_in(2) {
        return NO_ASSUMPTION;
    }
    random.below(outputs) as u8
}

/// A length from 1 to 64, short ones more often.
fn length(random: &mut Random) -> usize {
    let most = random.pick(&[4, 16, LONGEST_EXPRESSION]);
    random.range(1, most)
}

/// A version, and what joins two values in its sheets.
#[derive(Clone, Copy)]
struct Version {
    number: u16,
    operators: &'static [u8],
}

const VERSION_1: Version = Version { number: 1, operators: &[0x03, 0x04] };
const VERSION_2: Version = Version { number: 2, operators: &[0x03, 0x04, 0x05] };

impl Version {
    fn draw(random: &mut Random) -> Version {
        random.pick(&[VERSION_1, VERSION_1, VERSION_2])
    }

    fn operator(self, random: &mut Random) -> u8 {
        random.pick(self.operators)
    }

    /// Exclusive or of two reads.
    fn differs(self, left: u8, right: u8) -> Vec<u8> {
        match self.number {
            1 => vec![left, right, 0x02, 0x03, left, 0x02, right, 0x03, 0x04],
            _ => vec![left, right, 0x05, 0x02],
        }
    }

    /// A sheet of these expressions, with an assumption or without.
    fn sheet(self, random: &mut Random, inputs: usize, expressions: &[Vec<u8>]) -> Vec<u8> {
        write_version(self.number, inputs as u8, assumption(random, expressions.len()), expressions)
    }
}

/// What the operands of one expression are drawn from. Either list may be empty, not both.
struct Operands {
    inputs: Vec<u8>,
    outputs: Vec<u8>,
}

impl Operands {
    fn draw(&self, random: &mut Random) -> u8 {
        if random.one_in(12) {
            return random.below(2) as u8;
        }
        let outputs_first = random.below(5) < 3;
        let inputs = self.outputs.is_empty() || (!outputs_first && !self.inputs.is_empty());
        random.pick(if inputs { &self.inputs } else { &self.outputs })
    }
}

/// The five reads of a stream.
fn reads_of(stream: usize) -> [u8; 5] {
    [(-1, false), (-1, true), (0, false), (1, false), (1, true)]
        .map(|(offset, default)| byte_of_read(stream, offset, default))
}

fn reads_of_inputs(inputs: usize) -> Vec<u8> {
    (0..inputs).flat_map(reads_of).collect()
}

/// A postfix expression of exactly this length.
fn expression(random: &mut Random, version: Version, length: usize, operands: &Operands) -> Vec<u8> {
    let mut bytes = Vec::new();
    let mut values = 0;
    while bytes.len() < length {
        let left = length - bytes.len();
        // The values left must still be joined into one by the bytes that remain.
        let (may_push, may_negate) = (values < left, values >= 1 && values <= left);
        let byte = match random.below(8) {
            0 if may_negate => 0x02,
            1..=4 if values >= 2 => version.operator(random),
            _ if may_push => operands.draw(random),
            _ if values >= 2 => version.operator(random),
            _ => 0x02,
        };
        match byte {
            0x02 => {}
            0x03..=0x05 => values -= 1,
            _ => values += 1,
        }
        bytes.push(byte);
    }
    bytes
}

/// All operands first, as many as can be joined: the largest number of values waiting.
fn deep_expression(random: &mut Random, version: Version, length: usize, operands: &Operands) -> Vec<u8> {
    let count = length.div_ceil(2);
    let mut bytes: Vec<u8> = (0..count).map(|_| operands.draw(random)).collect();
    bytes.extend((1..count).map(|_| version.operator(random)));
    bytes.resize(length, 0x02);
    bytes
}

/// A sheet that keeps rules 1 to 9 and reads any stream anywhere; most are circular.
pub fn loose(random: &mut Random) -> Vec<u8> {
    let version = Version::draw(random);
    let (inputs, outputs) = sizes(random);
    let operands =
        Operands { inputs: reads_of_inputs(inputs), outputs: (inputs..inputs + outputs).flat_map(reads_of).collect() };
    let expressions: Vec<Vec<u8>> = (0..outputs)
        .map(|_| {
            let length = length(random);
            expression(random, version, length, &operands)
        })
        .collect();
    version.sheet(random, inputs, &expressions)
}

/// A sheet with few reads of outputs and hardly any of the same round: about half are circular,
/// some only in long traces.
pub fn sparse(random: &mut Random) -> Vec<u8> {
    let version = Version::draw(random);
    let (inputs, outputs) = sizes(random);
    let expressions: Vec<Vec<u8>> = (0..outputs)
        .map(|_| {
            let mut bytes = vec![byte_of_read(random.below(inputs), 0, false)];
            for _ in 0..random.pick(&[0, 1, 1, 1, 2]) {
                let offset = random.pick(&[-1, -1, -1, 0, 1, 1, 1]);
                bytes.push(byte_of_read(inputs + random.below(outputs), offset, random.one_in(2)));
                bytes.push(version.operator(random));
            }
            bytes
        })
        .collect();
    version.sheet(random, inputs, &expressions)
}

/// The reads of outputs each output may have, so that no value reaches itself.
///
/// Outputs fall into groups, and a read may go to any lower group. Inside a group, the value of
/// output s in round t has height `slope * t + base[s]`, and a read must go to a smaller height.
/// The bases lie further apart than the slope, so that a group can have reads in both directions.
fn falling_reads(random: &mut Random, inputs: usize, outputs: usize) -> Vec<Vec<u8>> {
    let groups = random.range(1, outputs);
    let group: Vec<usize> = (0..outputs).map(|_| random.below(groups)).collect();
    let slope: Vec<i64> = (0..groups).map(|_| random.pick(&[-4, 4])).collect();
    let base: Vec<i64> = (0..outputs).map(|_| random.below(14) as i64).collect();
    let allowed = |s: usize, q: usize, offset: i64| {
        group[q] < group[s] || (group[q] == group[s] && slope[group[s]] * offset + base[q] < base[s])
    };
    let reads = |s: usize| {
        let every = (0..outputs).flat_map(|q| [-1, 0, 1].map(|offset| (q, offset)));
        let kept = every.filter(|&(q, offset)| allowed(s, q, offset));
        kept.flat_map(|(q, offset)| [false, true].map(|default| byte_of_read(inputs + q, offset, default))).collect()
    };
    (0..outputs).map(reads).collect()
}

/// A sheet that is accepted, with reads in both directions.
pub fn accepted(random: &mut Random) -> Vec<u8> {
    if random.one_in(8) {
        return zigzag(random);
    }
    let version = Version::draw(random);
    let (inputs, outputs) = sizes(random);
    let deep = random.one_in(6);
    let outputs_only = random.one_in(4);
    let expressions: Vec<Vec<u8>> = falling_reads(random, inputs, outputs)
        .into_iter()
        .map(|reads| {
            let input_reads = if outputs_only && !reads.is_empty() { vec![] } else { reads_of_inputs(inputs) };
            let operands = Operands { inputs: input_reads, outputs: reads };
            let length = length(random);
            if deep {
                deep_expression(random, version, length, &operands)
            } else {
                expression(random, version, length, &operands)
            }
        })
        .collect();
    version.sheet(random, inputs, &expressions)
}

/// An accepted sheet with so many streams at most.
pub fn small(random: &mut Random, most: u8) -> Vec<u8> {
    loop {
        let sheet = accepted(random);
        if sheet[5] + sheet[6] <= most {
            return sheet;
        }
    }
}

/// An accepted sheet with four inputs or more.
pub fn wide(random: &mut Random) -> Vec<u8> {
    loop {
        let sheet = accepted(random);
        if sheet[5] >= 4 {
            return sheet;
        }
    }
}

/// An accepted sheet of version 1 with these counts and no assumption, whose expressions all have 64
/// bytes.
pub fn dense(random: &mut Random, inputs: usize, outputs: usize) -> Vec<u8> {
    let expressions: Vec<Vec<u8>> = falling_reads(random, inputs, outputs)
        .into_iter()
        .map(|reads| {
            let operands = Operands { inputs: reads_of_inputs(inputs), outputs: reads };
            expression(random, VERSION_1, LONGEST_EXPRESSION, &operands)
        })
        .collect();
    write(inputs as u8, NO_ASSUMPTION, &expressions)
}

/// A sheet with one input in which output `order[i]` reads output `order[i + 1]` at `offsets[i]`,
/// the last one the first. Each value differs from the one it reads where the input is true, so
/// that no value is settled before those it reads.
pub fn ring(order: &[usize], offsets: &[i64]) -> Vec<u8> {
    assert_eq!(order.len(), offsets.len());
    let mut expressions = vec![Vec::new(); order.len()];
    for (place, &output) in order.iter().enumerate() {
        let next = order[(place + 1) % order.len()];
        expressions[output] = VERSION_1.differs(byte_of_read(1 + next, offsets[place], false), 0x40);
    }
    write(1, NO_ASSUMPTION, &expressions)
}

/// Seven outputs that look back and ahead by turns. Each differs from its own neighbour where the
/// output before it is true, so that the outputs settle one after the other.
pub fn turns() -> Vec<u8> {
    let expression = |output: usize| {
        let offset = [-1, 1][output % 2];
        VERSION_1.differs(byte_of_read(1 + output, offset, false), byte_of_read(output, 0, false))
    };
    let expressions: Vec<Vec<u8>> = (0..7).map(expression).collect();
    write(1, NO_ASSUMPTION, &expressions)
}

/// Offsets of a ring that goes both ways and does not come back to the round it left.
fn ring_offsets(random: &mut Random, count: usize) -> Vec<i64> {
    loop {
        let offsets: Vec<i64> = (0..count).map(|_| random.pick(&[-1, -1, 0, 1, 1])).collect();
        if offsets.contains(&1) && offsets.contains(&-1) && offsets.iter().sum::<i64>() != 0 {
            return offsets;
        }
    }
}

/// An accepted sheet whose values depend on one another along chains that turn at each step.
pub fn zigzag(random: &mut Random) -> Vec<u8> {
    let version = Version::draw(random);
    let outputs = random.range(3, 7);
    let inputs = random.range(1, 8 - outputs);
    let order = random.shuffled(outputs);
    let ring = random.range(3, outputs);
    let offsets = ring_offsets(random, ring);
    let mut expressions = vec![Vec::new(); outputs];
    for (place, &output) in order.iter().enumerate() {
        let (next, offset) = if place < ring {
            (order[(place + 1) % ring], offsets[place])
        } else {
            (order[random.below(place)], random.pick(&[-1, 0, 1]))
        };
        let read = byte_of_read(inputs + next, offset, random.one_in(2));
        let own = byte_of_read(inputs + output, random.pick(&[-1, 1]), random.one_in(2));
        let other = if place >= ring && random.one_in(2) { own } else { random.pick(&reads_of_inputs(inputs)) };
        expressions[output] = version.differs(read, other);
    }
    version.sheet(random, inputs, &expressions)
}

/// Two rings with one output in common. Rings that go opposite ways make the sheet circular, but
/// often no ring alone does, and the circle needs a long trace.
pub fn two_rings(random: &mut Random) -> Vec<u8> {
    let version = Version::draw(random);
    let outputs = random.range(3, 7);
    let inputs = random.range(1, 8 - outputs);
    let order = random.shuffled(outputs);
    let common = random.range(1, outputs - 2);
    let mut expressions = vec![vec![byte_of_read(random.below(inputs), 0, false)]; outputs];
    for members in [&order[..=common], &order[common..]] {
        let way = random.pick(&[-1, 1]);
        for (place, &output) in members.iter().enumerate() {
            let next = members[(place + 1) % members.len()];
            let offset = random.pick(&[way, way, way, way, way, 0]);
            let read = byte_of_read(inputs + next, offset, random.one_in(2));
            expressions[output].extend([read, version.operator(random)]);
        }
    }
    version.sheet(random, inputs, &expressions)
}

/// Any sheet that keeps rules 1 to 9.
pub fn well_formed(random: &mut Random) -> Vec<u8> {
    match random.below(6) {
        0 => loose(random),
        1 => sparse(random),
        2 => two_rings(random),
        _ => accepted(random),
    }
}

/// A sheet with one to three faults, some of which may do no harm.
pub fn damaged(random: &mut Random) -> Vec<u8> {
    if random.one_in(20) {
        return noise(random);
    }
    let mut sheet = well_formed(random);
    for _ in 0..random.pick(&[1, 1, 1, 2, 3]) {
        damage(random, &mut sheet);
    }
    sheet
}

/// Bytes without any order, half of them behind a good header.
fn noise(random: &mut Random) -> Vec<u8> {
    let mut bytes = if random.one_in(2) { vec![] } else { loose(random)[..HEADER].to_vec() };
    let count = random.below(40);
    bytes.extend(random.bytes(count));
    bytes
}

fn damage(random: &mut Random, sheet: &mut Vec<u8>) {
    if sheet.len() <= HEADER {
        return;
    }
    match random.below(15) {
        0 => sheet.truncate(random.below(HEADER)),
        1 => {
            let length = random.below(sheet.len());
            sheet.truncate(length);
        }
        2 | 3 => {
            let count = random.range(1, 4);
            sheet.extend(random.bytes(count));
        }
        4 => sheet[random.below(3)] = random.byte(),
        5 => sheet[3 + random.below(2)] = random.below(4) as u8,
        6 => sheet[5 + random.below(2)] = random.below(10) as u8,
        7 => sheet[7] = random.pick(&[0, 1, 2, 3, 6, 7, 8, 254, 255]),
        8 => {
            let lengths = length_places(sheet);
            let place = random.pick(&lengths);
            let near = [0, 1, 63, 64, 65, 255, sheet[place].wrapping_sub(1), sheet[place].wrapping_add(1)];
            sheet[place] = random.pick(&near);
        }
        9 => {
            let place = random.below(sheet.len());
            sheet[place] = random.byte();
        }
        10 => *expression_byte(random, sheet) = random.pick(&[0x05, 0x06, 0x3F, 0x48, 0x4F, 0x70, 0x80, 0xC0, 0xFF]),
        11 => *expression_byte(random, sheet) = random.pick(&[0x47, 0x57, 0x5F, 0x67, 0x6F]),
        12 => *expression_byte(random, sheet) = random.pick(&[0x02, 0x03, 0x04, 0x05]),
        // Version 1 becomes 2, and 2 becomes 1.
        13 => sheet[3] ^= 3,
        _ => *expression_byte(random, sheet) = random.pick(&[0x00, 0x01, 0x40, 0x50, 0x60]),
    }
}

/// Where the length bytes lie, as far as the sheet can be followed.
fn length_places(sheet: &[u8]) -> Vec<usize> {
    let mut places = vec![HEADER];
    while let Some(&length) = sheet.get(places[places.len() - 1]) {
        let next = places[places.len() - 1] + 1 + length as usize;
        if next >= sheet.len() {
            break;
        }
        places.push(next);
    }
    places
}

/// Some byte after the first length, most often inside an expression.
fn expression_byte<'a>(random: &mut Random, sheet: &'a mut [u8]) -> &'a mut u8 {
    let place = random.range((HEADER + 1).min(sheet.len() - 1), sheet.len() - 1);
    &mut sheet[place]
}

#[cfg(test)]
mod tests {
    use super::*;
    use crate::journal::{call_of_line, Call};
    use crate::{circular, hex, sheet};

    /// Sets of one letter, of all, and of numbers in between that no masks make occur for all inputs.
    #[test]
    fn all_kinds_of_sets_occur() {
        let mut random = Random::new(507);
        for inputs in 1..=6 {
            let (mut single, mut full, mut others) = (0, 0, 0);
            for _ in 0..2000 {
                let unknown = random.pick(&[0, 10, 50, 90, 100]);
                let letter = random.letter(inputs);
                let set = random.round_of(letter, inputs, unknown);
                assert!(set.has(letter as usize) && !set.is_bad(inputs));
                single += (set.letters().len() == 1) as usize;
                full += (set == LetterSet::all(inputs)) as usize;
                others += !set.letters().len().is_power_of_two() as usize;
            }
            assert!(single >= 100 && full >= 100 && (inputs == 1 || others >= 100), "{single} {full} {others}");
        }
    }

    #[test]
    fn good_and_bad_sets_occur() {
        let mut random = Random::new(508);
        for inputs in 1..=6 {
            let bad = (0..1000).filter(|_| random.any_set(inputs).is_bad(inputs)).count();
            assert!((200..=990).contains(&bad), "{inputs} inputs: {bad}");
        }
    }

    #[test]
    fn alternatives_stand_for_their_set() {
        let mut random = Random::new(509);
        for turn in 0..3000 {
            let inputs = 1 + turn % 6;
            let unknown = random.pick(&[0, 20, 60, 100]);
            let letters = random.round(inputs, unknown);
            let line = random.alternatives(inputs, letters);
            assert_eq!(call_of_line(&line), Call::Round(letters), "{line}");
            assert!(line.contains('|') && line.split('|').all(|marks| marks.len() == inputs), "{line}");
        }
    }

    #[test]
    fn well_formed_sheets_break_no_rule_below_10() {
        let mut random = Random::new(501);
        for _ in 0..4000 {
            let bytes = well_formed(&mut random);
            assert!(sheet::read(&bytes).is_ok(), "{}", hex(&bytes));
        }
    }

    #[test]
    fn accepted_sheets_are_accepted() {
        let mut random = Random::new(502);
        let (mut both_ways, mut longest) = (0, 0);
        for _ in 0..4000 {
            let bytes = accepted(&mut random);
            let sheet = circular::accept(&bytes).unwrap_or_else(|number| panic!("{number}: {}", hex(&bytes)));
            let offsets: Vec<i64> =
                (0..sheet.outputs()).flat_map(|k| sheet.output_reads(k)).map(|(_, offset)| offset).collect();
            both_ways += (offsets.contains(&1) && offsets.contains(&-1)) as usize;
            longest = longest.max(bytes.len());
        }
        assert!(both_ways > 1500, "{both_ways} sheets read in both directions");
        assert!(longest > 250, "{longest} bytes in the longest sheet");
    }

    /// About a third of the sheets are of version 2, most of these with comparisons and some without.
    #[test]
    fn both_versions_occur() {
        let mut random = Random::new(506);
        for make in [loose, sparse, accepted, two_rings, well_formed] {
            let (mut comparing, mut others) = (0, 0);
            for _ in 0..2000 {
                let bytes = make(&mut random);
                if sheet::version(&bytes) == 2 {
                    let compares = sheet::read(&bytes).unwrap().compares();
                    *(if compares { &mut comparing } else { &mut others }) += 1;
                }
            }
            assert!(comparing > 400 && others > 40 && comparing + others < 800, "{comparing} and {others} of 2000");
        }
    }

    #[test]
    fn all_sizes_occur() {
        let mut random = Random::new(503);
        let drawn: Vec<(usize, usize)> = (0..4000).map(|_| sizes(&mut random)).collect();
        for inputs in 1..=6 {
            for outputs in 1..=(8 - inputs).min(7) {
                let times = drawn.iter().filter(|&&size| size == (inputs, outputs)).count();
                assert!(times > 20, "{inputs} inputs, {outputs} outputs: {times}");
            }
        }
    }

    #[test]
    fn expressions_have_the_length_asked_for() {
        let mut random = Random::new(504);
        let operands = Operands { inputs: vec![0x40], outputs: vec![] };
        for version in [VERSION_1, VERSION_2] {
            for length in 1..=LONGEST_EXPRESSION {
                for make in [expression, deep_expression] {
                    let bytes = make(&mut random, version, length, &operands);
                    assert_eq!(bytes.len(), length);
                    assert!(sheet::read(&version.sheet(&mut random, 1, &[bytes])).is_ok());
                }
            }
        }
    }

    #[test]
    fn every_number_occurs_among_damaged_sheets() {
        let mut random = Random::new(505);
        // By the low byte of the version. Where it is 1 or 2, rule 3 is broken by the high byte.
        let mut seen = [[0; 11]; 4];
        for _ in 0..10_000 {
            let bytes = damaged(&mut random);
            let number = circular::accept(&bytes).err().unwrap_or(0);
            let low = bytes.get(3).copied().unwrap_or(0);
            seen[low.min(3) as usize][number as usize] += 1;
        }
        assert!(seen[1..3].iter().flatten().all(|&times| times >= 50), "{seen:?}");
        assert!([seen[0][3], seen[3][3]].iter().all(|&times| times >= 50), "{seen:?}");
    }
}
