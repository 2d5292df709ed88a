//! Sets of pairs in the layout of the storage, and the two searches on them.

use super::lanes::{below, equations, reads, stream, EARLIER, LATER, NOW};
use super::letters::repeated;
use super::sheet::Sheet;
use std::array::from_fn;

/// Row a, the valuations that may follow a, is the four words from 4 a; the last four words tell
/// which valuations the end mark may follow.
pub type Set = [u64; 1028];

const ENDS: usize = 1024;

fn row<const W: usize>(set: &Set, a: usize) -> [u64; W] {
    from_fn(|j| set[4 * a + j])
}

fn take_row<const W: usize>(set: &mut Set, a: usize) -> [u64; W] {
    let found = row(set, a);
    set[4 * a..4 * a + 4].fill(0);
    found
}

fn join_row<const W: usize>(set: &mut Set, a: usize, words: [u64; W]) {
    (0..W).for_each(|j| set[4 * a + j] |= words[j]);
}

fn has_end(set: &Set, a: usize) -> bool {
    set[ENDS + a / 64] >> (a % 64) & 1 == 1
}

pub fn clear_rows(set: &mut Set, size: usize) {
    set[..4 * size].fill(0);
    set[ENDS..].fill(0);
}

/// The words' lanes, lowest first.
fn each_lane<const W: usize>(words: [u64; W], mut visit: impl FnMut(usize)) {
    for (j, &word) in words.iter().enumerate() {
        let mut left = word;
        while left != 0 {
            visit(64 * j + left.trailing_zeros() as usize);
            left &= left - 1;
        }
    }
}

fn and<const W: usize>(left: [u64; W], right: [u64; W]) -> [u64; W] {
    from_fn(|j| left[j] & right[j])
}

/// Whether `left` has a lane that `right` lacks.
fn exceeds<const W: usize>(left: [u64; W], right: [u64; W]) -> bool {
    (0..W).any(|j| left[j] & !right[j] != 0)
}

/// Finds the live pairs, layer by layer back from the end. All three sets are empty at first, and
/// the last two afterwards. Returns the number of the last layer.
pub fn find_live(sheet: &Sheet, live: &mut Set, layer: &mut Set, next: &mut Set) -> usize {
    match sheet.size() {
        256 => find_live_in::<4>(sheet, live, layer, next),
        128 => find_live_in::<2>(sheet, live, layer, next),
        _ => find_live_in::<1>(sheet, live, layer, next),
    }
}

fn find_live_in<'a, const W: usize>(
    sheet: &Sheet,
    live: &mut Set,
    mut layer: &'a mut Set,
    mut next: &'a mut Set,
) -> usize {
    let mut allowed = below::<W>(sheet.size());
    if let Some(output) = sheet.assumption {
        allowed = and(allowed, stream(sheet.inputs + output));
    }
    live[ENDS..ENDS + W].copy_from_slice(&allowed);
    layer[ENDS..ENDS + W].copy_from_slice(&allowed);
    // The rows of the layer that have a pair.
    let mut occupied = allowed;
    let mut layers = 0;
    while occupied != [0; W] {
        layers += 1;
        let mut occupied_next = [0; W];
        each_lane(occupied, |b| {
            let before = predecessors::<W>(sheet, layer, b, allowed);
            each_lane(before, |a| {
                let (word, bit) = (4 * a + b / 64, 1 << (b % 64));
                if live[word] & bit == 0 {
                    live[word] |= bit;
                    next[word] |= bit;
                    occupied_next[a / 64] |= 1 << (a % 64);
                }
            });
        });
        layer[ENDS..].fill(0);
        (layer, next, occupied) = (next, layer, occupied_next);
    }
    layers - 1
}

/// The allowed a that may stand before b, as the layer's row b tells, which is taken out.
fn predecessors<const W: usize>(sheet: &Sheet, layer: &mut Set, b: usize, allowed: [u64; W]) -> [u64; W] {
    let mut before = [0; W];
    let mut unite = |c: Option<usize>| {
        if exceeds(allowed, before) {
            let held = equations::<W, EARLIER>(sheet, reads(b, None, c), b);
            before = from_fn(|j| before[j] | held[j] & allowed[j]);
        }
    };
    let after = take_row::<W>(layer, b);
    each_lane(after, |c| unite(Some(c)));
    if has_end(layer, b) {
        unite(None);
    }
    before
}

/// The number of pairs of a set.
pub fn count(set: &Set) -> u32 {
    set.iter().map(|word| word.count_ones()).sum()
}

/// One round: replaces the reached set, and returns the first parts of its pairs. `letters` is the
/// round's set. The scratch set is empty before and after.
pub fn step(sheet: &Sheet, live: &Set, reached: &mut Set, scratch: &mut Set, first: bool, letters: u64) -> [u64; 4] {
    match sheet.size() {
        256 => step_in::<4>(sheet, live, reached, scratch, first, letters),
        128 => step_in::<2>(sheet, live, reached, scratch, first, letters),
        _ => step_in::<1>(sheet, live, reached, scratch, first, letters),
    }
}

fn step_in<const W: usize>(
    sheet: &Sheet,
    live: &Set,
    reached: &mut Set,
    scratch: &mut Set,
    first: bool,
    letters: u64,
) -> [u64; 4] {
    let size = sheet.size();
    let heard = and([repeated(sheet.inputs, letters); W], below(size));
    if first {
        clear_rows(reached, size);
        let earlier = reads(0, None, None);
        gain::<W>(sheet, live, reached, earlier, heard);
    } else {
        let mask = sheet.earlier;
        // The groups of which anything was heard.
        let mut groups = [0; W];
        let mut a = 0;
        while a < size {
            // Four empty rows are passed over at once.
            if a % 4 == 0 && reached[4 * a..4 * a + 16].iter().fold(0, |any, word| any | word) == 0 {
                a += 4;
                continue;
            }
            let found = and(row::<W>(reached, a), heard);
            if found != [0; W] {
                let group = a & mask;
                join_row(scratch, group, found);
                groups[group / 64] |= 1 << (group % 64);
            }
            a += 1;
        }
        clear_rows(reached, size);
        each_lane(groups, |group| {
            let joined = take_row::<W>(scratch, group);
            gain::<W>(sheet, live, reached, reads(0, Some(group), None), joined);
        });
    }
    let mut firsts = [0; 4];
    each_lane(heard, |b| {
        let any = row::<W>(reached, b) != [0; W] || has_end(reached, b);
        firsts[b / 64] |= (any as u64) << (b % 64);
    });
    firsts
}

/// The reached set gains what is live and may follow the valuations of a row, `earlier` being the
/// reads of the round before.
fn gain<const W: usize>(sheet: &Sheet, live: &Set, reached: &mut Set, earlier: u64, valuations: [u64; W]) {
    each_lane(valuations, |b| gain_row::<W>(sheet, live, reached, earlier, b));
    let lacking: [u64; W] = from_fn(|j| valuations[j] & live[ENDS + j] & !reached[ENDS + j]);
    if lacking != [0; W] {
        let held = equations::<W, NOW>(sheet, earlier, 0);
        (0..W).for_each(|j| reached[ENDS + j] |= lacking[j] & held[j]);
    }
}

/// Row b of the reached set gains the valuations that are live and may follow b.
fn gain_row<const W: usize>(sheet: &Sheet, live: &Set, reached: &mut Set, earlier: u64, b: usize) {
    let may_follow = and(row::<W>(live, b), below(sheet.size()));
    if exceeds(may_follow, row(reached, b)) {
        let held = equations::<W, LATER>(sheet, earlier | b as u64, b);
        join_row(reached, b, and(may_follow, held));
    }
}

/// The first parts of the pairs of a set, of which nothing is known.
pub fn firsts(sheet: &Sheet, set: &Set) -> [u64; 4] {
    match sheet.size() {
        256 => firsts_in::<4>(sheet, set),
        128 => firsts_in::<2>(sheet, set),
        _ => firsts_in::<1>(sheet, set),
    }
}

fn firsts_in<const W: usize>(sheet: &Sheet, set: &Set) -> [u64; 4] {
    let inside = below::<W>(sheet.size());
    let mut firsts = [0; 4];
    for j in 0..W {
        let mut word = set[ENDS + j] & inside[j];
        for i in 0..sheet.size().min(64) {
            let any = and(row::<W>(set, 64 * j + i), inside) != [0; W];
            word |= (any as u64) << i;
        }
        firsts[j] = word;
    }
    firsts
}

/// The valuations that the end mark follows.
pub fn ends(sheet: &Sheet, reached: &Set) -> [u64; 4] {
    from_fn(|j| match sheet.size() {
        size if size <= 64 * j => 0,
        size if size < 64 => reached[ENDS] & ((1 << size) - 1),
        _ => reached[ENDS + j],
    })
}

/// The verdict on each output over these valuations, 0 for outputs that the sheet lacks.
pub fn verdicts(sheet: &Sheet, valuations: [u64; 4]) -> [u8; 7] {
    from_fn(|k| if k < sheet.outputs { verdict(valuations, stream(sheet.inputs + k)) } else { 0 })
}

/// The verdict on all outputs of a set being true together over these valuations.
pub fn set_verdict(sheet: &Sheet, valuations: [u64; 4], outputs: u8) -> u8 {
    let named = (0..sheet.outputs).filter(|k| outputs >> k & 1 == 1);
    verdict(valuations, named.fold([u64::MAX; 4], |lanes, k| and(lanes, stream(sheet.inputs + k))))
}

/// The verdict on a test that these lanes pass.
fn verdict(valuations: [u64; 4], lanes: [u64; 4]) -> u8 {
    let some_true = and(valuations, lanes) != [0; 4];
    let some_false = exceeds(valuations, lanes);
    match (some_true, some_false) {
        (false, true) => 0,
        (true, false) => 1,
        (true, true) => 2,
        (false, false) => 3,
    }
}
