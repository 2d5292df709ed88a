//! Shortest times of runs that take turns, in processor time, so that a busy machine spoils little and
//! all of them alike.

/// What is timed at once lasts so long at least, in seconds.
const SHORTEST_BATCH: f64 = 300e-6;

/// How often runs are repeated. Times are in seconds.
#[derive(Clone, Copy)]
pub struct Effort {
    /// There are so many turns at least,
    fewest_turns: usize,
    /// and they go on until the runs have taken so long in the mean, those left out that take no more.
    patience: f64,
    /// A run that has taken so long takes no further turns.
    pub enough: f64,
    /// How often each program is run.
    pub program_runs: usize,
}

impl Effort {
    /// For a report.
    pub const FULL: Effort = Effort { fewest_turns: 5, patience: 0.5, enough: 2.0, program_runs: 5 };
    /// For a look while working.
    pub const QUICK: Effort = Effort { fewest_turns: 3, patience: 0.05, enough: 0.3, program_runs: 2 };

    /// Lets the runs take turns. A run is known by its number, and tells how long it took.
    fn take_turns(self, runs: usize, mut run: impl FnMut(usize) -> f64) {
        let slow = |taken: f64| taken >= self.enough;
        let mut taken = vec![0.0; runs];
        for turns in 1.. {
            for (i, taken) in taken.iter_mut().enumerate().filter(|(_, taken)| !slow(**taken)) {
                *taken += run(i);
            }
            let others = taken.iter().filter(|taken| !slow(**taken));
            let patient = others.clone().sum::<f64>() < self.patience * others.count() as f64;
            if turns >= self.fewest_turns && !patient {
                return;
            }
        }
    }

    /// For each run the shortest times of its parts, added up.
    pub fn shortest_by_parts<const N: usize>(self, runs: [&mut dyn FnMut(&mut Parts); N]) -> [f64; N] {
        self.shortest_parts(runs).map(|times| times.iter().sum())
    }

    /// For each run the shortest times of its parts. A run begins with a part that does not count, and has as
    /// many parts each time.
    pub fn shortest_parts<const N: usize>(self, mut runs: [&mut dyn FnMut(&mut Parts); N]) -> [Vec<f64>; N] {
        let mut best: [Vec<f64>; N] = std::array::from_fn(|_| Vec::new());
        self.take_turns(N, |i| {
            let mut parts = Parts::start();
            runs[i](&mut parts);
            best[i].resize(parts.times.len(), f64::INFINITY);
            best[i].iter_mut().zip(&parts.times).for_each(|(best, time)| *best = best.min(*time));
            parts.times.iter().sum()
        });
        best.map(|times| times[1..].to_vec())
    }

    /// The shortest time of one run of each.
    pub fn shortest<const N: usize>(self, mut runs: [&mut dyn FnMut(); N]) -> [f64; N] {
        let batches: [u32; N] = std::array::from_fn(|i| {
            // The first run finds cold caches.
            let first = time(&mut runs[i], 1);
            if first > SHORTEST_BATCH {
                return 1;
            }
            let once = time(&mut runs[i], 1).max(1e-8);
            (SHORTEST_BATCH / once).ceil() as u32
        });
        let mut best = [f64::INFINITY; N];
        self.take_turns(N, |i| {
            let time = time(&mut runs[i], batches[i]);
            best[i] = best[i].min(time);
            time * batches[i] as f64
        });
        best
    }
}

/// The times of the parts of a run.
pub struct Parts {
    last: f64,
    times: Vec<f64>,
}

impl Parts {
    fn start() -> Parts {
        Parts { last: clock::of_thread(), times: Vec::new() }
    }

    /// Ends a part and begins the next.
    pub fn end_part(&mut self) {
        let now = clock::of_thread();
        self.times.push(now - self.last);
        self.last = now;
    }
}

/// The mean time of one run in a batch.
fn time(run: &mut dyn FnMut(), batch: u32) -> f64 {
    let start = clock::of_thread();
    (0..batch).for_each(|_| run());
    (clock::of_thread() - start) / batch as f64
}

/// Processor time, from the C library that the standard library links.
pub mod clock {
    const THREAD_CLOCK: i32 = 3;
    const CHILDREN: i32 = -1;

    mod ffi {
        extern "C" {
            pub fn clock_gettime(clock: i32, seconds_and_nanoseconds: *mut [i64; 2]) -> i32;
            pub fn getrusage(who: i32, usage: *mut [i64; 18]) -> i32;
        }
    }

    /// Seconds that this thread has used.
    pub fn of_thread() -> f64 {
        let mut time = [0; 2];
        // SAFETY: the function writes two numbers.
        let failed = unsafe { ffi::clock_gettime(THREAD_CLOCK, &mut time) };
        assert_eq!(failed, 0, "a clock of processor time");
        time[0] as f64 + time[1] as f64 * 1e-9
    }

    /// Seconds that all processes used that were started from here and have ended.
    pub fn of_children() -> f64 {
        let mut usage = [0; 18];
        // SAFETY: the function writes eighteen numbers, of which the first four are seconds and
        // microseconds in the program and in the system.
        let failed = unsafe { ffi::getrusage(CHILDREN, &mut usage) };
        assert_eq!(failed, 0, "the times of the programs run");
        (usage[0] + usage[2]) as f64 + (usage[1] + usage[3]) as f64 * 1e-6
    }
}

#[cfg(test)]
mod tests {
    use super::*;

    fn turns(effort: Effort, times: [f64; 3]) -> [usize; 3] {
        let mut counts = [0; 3];
        effort.take_turns(3, |i| {
            counts[i] += 1;
            times[i]
        });
        counts
    }

    #[test]
    fn slow_runs_take_fewer_turns() {
        let effort = Effort { fewest_turns: 5, patience: 3.0, enough: 10.0, program_runs: 1 };
        assert_eq!(turns(effort, [0.5, 0.5, 0.5]), [6, 6, 6]);
        assert_eq!(turns(effort, [0.5, 1.0, 20.0]), [5, 5, 1]);
        assert_eq!(turns(effort, [0.25, 4.0, 20.0]), [12, 3, 1]);
        assert_eq!(turns(effort, [12.0, 4.0, 20.0]), [1, 3, 1]);
    }
}
