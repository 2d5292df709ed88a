//! Rule 10: a sheet is circular exactly if some output has a closed walk along reads of weight at
//! least 0 and one of weight at most 0, a read one round later weighing 1 and one earlier -1.

use super::sheet::OutputReads;

const NO_WALK: i32 = i32::MIN;
const UNBOUNDED: i32 = i32::MAX;

type Weights = [[i32; 7]; 7];

pub fn is_circular(outputs: usize, reads: &OutputReads) -> bool {
    let rising = closed(outputs, reads, [(4, 1), (2, 0), (1, -1)]);
    let falling = closed(outputs, reads, [(1, 1), (2, 0), (4, -1)]);
    (0..outputs).any(|s| rising[s][s] >= 0 && falling[s][s] >= 0)
}

/// The largest weights of walks, by Kleene's algorithm. The weights of the offsets are given with the
/// largest first.
fn closed(outputs: usize, reads: &OutputReads, weights: [(u8, i32); 3]) -> Weights {
    let mut table = [[NO_WALK; 7]; 7];
    for s in 0..outputs {
        for q in 0..outputs {
            let heaviest = weights.iter().find(|(offset, _)| reads[s][q] & offset != 0);
            table[s][q] = heaviest.map_or(NO_WALK, |&(_, weight)| weight);
        }
    }
    for k in 0..outputs {
        let through = table[k];
        for row in table.iter_mut().take(outputs) {
            let to = row[k];
            if to != NO_WALK {
                (0..outputs).for_each(|q| row[q] = row[q].max(joined(to, through[k], through[q])));
            }
        }
    }
    table
}

/// A walk to an output, any number of times around it, and a walk from it.
fn joined(to: i32, around: i32, from: i32) -> i32 {
    if from == NO_WALK {
        NO_WALK
    } else if around > 0 || to == UNBOUNDED || from == UNBOUNDED {
        UNBOUNDED
    } else {
        to + from
    }
}
