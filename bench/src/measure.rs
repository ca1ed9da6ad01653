//! Two ways to do one thing, timed in turns in one run.

use std::time::Instant;

/// How long each of two ways takes, in nanoseconds a call.
pub struct Timed {
    pub ours: f64,
    pub theirs: f64,
}

impl Timed {
    pub fn ratio(&self) -> f64 {
        self.ours / self.theirs
    }
}

const TURNS: usize = 3000;

fn once(batch: u32, call: &mut impl FnMut()) -> f64 {
    let start = Instant::now();
    for _ in 0..batch {
        call();
    }
    start.elapsed().as_nanos() as f64 / batch as f64
}

/// Times both in turns of some 20 microseconds and takes the least of each: what else the machine does only adds.
pub fn in_turns(mut ours: impl FnMut(), mut theirs: impl FnMut()) -> Timed {
    let first = (0..20).map(|_| once(4, &mut ours).min(once(4, &mut theirs))).fold(f64::MAX, f64::min);
    let batch = (20_000.0 / first).ceil() as u32;
    let mut least = Timed { ours: f64::MAX, theirs: f64::MAX };
    for turn in 0..TURNS {
        if turn % 2 == 0 {
            least.ours = least.ours.min(once(batch, &mut ours));
            least.theirs = least.theirs.min(once(batch, &mut theirs));
        } else {
            least.theirs = least.theirs.min(once(batch, &mut theirs));
            least.ours = least.ours.min(once(batch, &mut ours));
        }
    }
    least
}
