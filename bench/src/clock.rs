//! Timing two ways to do the same work, and copying what it reads and writes.

use std::time::{Duration, Instant};

/// A batch takes at least so long, so that reading the clock costs nothing.
const BATCH: Duration = Duration::from_micros(50);
/// How long one comparison may take, and the least and the most rounds in it.
const BUDGET: Duration = Duration::from_millis(100);
const LEAST_ROUNDS: usize = 31;
const MOST_ROUNDS: usize = 2_001;

/// What was measured of two ways to do the same work, and of copying what it reads and writes: the
/// medians, in nanoseconds a call, or bytes of stack.
#[derive(Clone, Copy, PartialEq)]
pub struct Times {
    pub ours: f64,
    pub theirs: f64,
    pub copy: f64,
}

/// Measures two ways to do the same work, and then the copying, so many calls each.
pub type Gauge = fn(usize, &mut dyn FnMut(), &mut dyn FnMut(), &mut dyn FnMut()) -> Times;

/// Does all three in rounds, one batch each. Every other round goes backwards, with the copying in
/// the middle, so that each of the two ways comes first in half of them. The time is that of one
/// call.
pub fn race(
    calls: usize,
    ours: &mut dyn FnMut(),
    theirs: &mut dyn FnMut(),
    copy: &mut dyn FnMut(),
) -> Times {
    let times = times_a_batch(ours).max(times_a_batch(theirs));
    // The copying takes far less time, so a batch of it has more.
    let copies = times_a_batch(copy);
    let mut racers = [Racer::new(ours, times), Racer::new(copy, copies), Racer::new(theirs, times)];
    let (start, mut rounds) = (Instant::now(), 0);
    while rounds < LEAST_ROUNDS || (rounds < MOST_ROUNDS && start.elapsed() < BUDGET) {
        if rounds.is_multiple_of(2) {
            racers.iter_mut().for_each(Racer::go);
        } else {
            racers.iter_mut().rev().for_each(Racer::go);
        }
        rounds += 1;
    }
    let [ours, copy, theirs] = racers.map(|racer| racer.once() / calls as f64);
    Times { ours, theirs, copy }
}

/// Work that is done so many times in a batch, and how long each batch took.
struct Racer<'a> {
    work: &'a mut dyn FnMut(),
    times: usize,
    batches: Vec<Duration>,
}

impl<'a> Racer<'a> {
    fn new(work: &'a mut dyn FnMut(), times: usize) -> Self {
        Racer { work, times, batches: Vec::new() }
    }

    /// One batch more.
    fn go(&mut self) {
        self.batches.push(batch(self.times, self.work));
    }

    /// The nanoseconds of doing the work once, by the median of the batches.
    fn once(self) -> f64 {
        median(self.batches).as_nanos() as f64 / self.times as f64
    }
}

/// How often the work fills a batch; finding that out also warms it up.
fn times_a_batch(work: &mut dyn FnMut()) -> usize {
    let mut times = 1;
    while batch(times, work) < BATCH {
        times *= 2;
    }
    times
}

fn batch(times: usize, work: &mut dyn FnMut()) -> Duration {
    let start = Instant::now();
    for _ in 0..times {
        work();
    }
    start.elapsed()
}

fn median(mut times: Vec<Duration>) -> Duration {
    times.sort_unstable();
    times[times.len() / 2]
}
