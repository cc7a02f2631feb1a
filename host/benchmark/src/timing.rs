//! The best of several rounds, in milliseconds.

use std::time::{Duration, Instant};

const MOST_ROUNDS: usize = 30;
const LEAST_ROUNDS: usize = 3;
const ENOUGH: Duration = Duration::from_millis(2000);
/// Work shorter than this is repeated within its turn, since the turns of the
/// others leave the caches cold.
const SHORT: Duration = Duration::from_millis(20);
const REPEATS: usize = 3;

/// The best time of one turn.
fn turn(work: &mut dyn FnMut()) -> Duration {
    let mut best = Duration::MAX;
    for _ in 0..REPEATS {
        let start = Instant::now();
        work();
        best = best.min(start.elapsed());
        if best > SHORT {
            break;
        }
    }
    best
}

/// How many rounds there are.
#[derive(Clone, Copy)]
pub struct Rounds {
    /// At most so many.
    pub most: usize,
    /// No further one after this time, the fewest apart.
    pub enough: Duration,
}

impl Rounds {
    const USUAL: Rounds = Rounds {
        most: MOST_ROUNDS,
        enough: ENOUGH,
    };

    /// For a program that is run several times, in turn with another.
    pub const SHARED: Rounds = Rounds {
        most: 10,
        enough: Duration::from_millis(500),
    };

    /// For two long times of which the difference is wanted, which may be a
    /// hundredth of each.
    pub const DIFFERENCE: Rounds = Rounds {
        most: 100,
        enough: Duration::from_millis(10_000),
    };

    /// Runs the pieces of work in turn, round by round, so that a busy spell of
    /// the machine meets all of them, and gives the best time of each.
    pub fn best<const N: usize>(self, mut works: [&mut dyn FnMut(); N]) -> [f64; N] {
        let begin = Instant::now();
        let mut best = [Duration::MAX; N];
        for rounds in 0..self.most {
            if rounds >= LEAST_ROUNDS && begin.elapsed() > self.enough {
                break;
            }
            for (work, best) in works.iter_mut().zip(&mut best) {
                *best = (*best).min(turn(work));
            }
        }
        best.map(|time| time.as_secs_f64() * 1e3)
    }
}

/// Two pieces of work, of which the second is a part of the first.
#[derive(Clone, Copy)]
pub struct Parted {
    /// The best time of the first.
    pub whole: f64,
    /// The best time of the second.
    pub part: f64,
    /// What the first takes more, the median of the rounds' differences: the best times
    /// may be of rounds far apart, in which the machine was not equally busy.
    pub rest: f64,
}

/// Runs both in turn, round by round.
pub fn parted(whole: &mut dyn FnMut(), part: &mut dyn FnMut()) -> Parted {
    const ROUNDS: usize = 400;
    const LONG_ENOUGH: Duration = Duration::from_secs(5);
    let time = |work: &mut dyn FnMut()| {
        let start = Instant::now();
        work();
        start.elapsed().as_secs_f64() * 1e3
    };
    let begin = Instant::now();
    let mut rounds = Vec::new();
    while rounds.len() < ROUNDS && (rounds.len() < LEAST_ROUNDS || begin.elapsed() < LONG_ENOUGH) {
        rounds.push([time(whole), time(part)]);
    }
    let least = |i: usize| rounds.iter().map(|r| r[i]).fold(f64::INFINITY, f64::min);
    let mut rests: Vec<f64> = rounds.iter().map(|[whole, part]| whole - part).collect();
    rests.sort_by(f64::total_cmp);
    Parted {
        whole: least(0),
        part: least(1),
        rest: rests[rests.len() / 2],
    }
}

/// The best times of the usual rounds.
pub fn best<const N: usize>(works: [&mut dyn FnMut(); N]) -> [f64; N] {
    Rounds::USUAL.best(works)
}

/// Rounds for an outside program, which counts its own, by the samples.
pub fn rounds(samples: usize) -> usize {
    match samples {
        0..=262_144 => MOST_ROUNDS,
        262_145..=4_194_304 => 8,
        _ => 4,
    }
}
