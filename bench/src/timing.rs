//! The time of a call: the least of many rounds.

use std::hint::black_box;
use std::time::{Duration, Instant};

/// All races are gone through so many times, and each time each has so many rounds: a machine can be slow for seconds.
pub const PASSES: usize = 5;
pub const ROUNDS: usize = 20;
pub const ROUND: Duration = Duration::from_millis(3);

struct Runner<'a> {
    /// Calls so many times, and gives the time of all.
    run: Box<dyn FnMut(u32) -> Duration + 'a>,
    /// How many calls fill a round.
    turns: u32,
    /// Of one call, in microseconds.
    least: f64,
}

impl<'a> Runner<'a> {
    fn new<T>(mut call: impl FnMut() -> T + 'a) -> Runner<'a> {
        let mut run = move |turns: u32| {
            let began = Instant::now();
            for _ in 0..turns {
                // By reference, so that a state is not copied for the timing's sake.
                black_box(&call());
            }
            began.elapsed()
        };
        let trial = 100;
        let turns = ROUND.as_secs_f64() * f64::from(trial) / run(trial).as_secs_f64();
        Runner {
            run: Box::new(run),
            turns: turns.max(1.0) as u32,
            least: f64::INFINITY,
        }
    }

    fn round(&mut self) {
        let time = (self.run)(self.turns).as_secs_f64() * 1e6 / f64::from(self.turns);
        self.least = self.least.min(time);
    }
}

pub struct Race<'a> {
    pub name: String,
    /// Do the limits of the report hold for it?
    pub limited: bool,
    /// Library, plain, ideal.
    runners: [Runner<'a>; 3],
    beside: Vec<Beside<'a>>,
}

/// What else the library is set beside.
struct Beside<'a> {
    name: &'static str,
    runner: Runner<'a>,
}

impl<'a> Race<'a> {
    pub fn new<A, B, C>(
        name: String,
        library: impl FnMut() -> A + 'a,
        plain: impl FnMut() -> B + 'a,
        ideal: impl FnMut() -> C + 'a,
    ) -> Race<'a> {
        let runners = [Runner::new(library), Runner::new(plain), Runner::new(ideal)];
        Race {
            name,
            limited: false,
            runners,
            beside: Vec::new(),
        }
    }

    /// The limits hold for it.
    pub fn limited(mut self) -> Race<'a> {
        self.limited = true;
        self
    }

    /// With another call on the line.
    pub fn beside<T>(mut self, name: &'static str, call: impl FnMut() -> T + 'a) -> Race<'a> {
        let runner = Runner::new(call);
        self.beside.push(Beside { name, runner });
        self
    }

    /// All go by turns, so that a slow moment of the machine meets all alike.
    fn round(&mut self) {
        let beside = self.beside.iter_mut().map(|beside| &mut beside.runner);
        self.runners.iter_mut().chain(beside).for_each(Runner::round);
    }

    /// The least time of a call for each of the three, in microseconds.
    pub fn times(&self) -> [f64; 3] {
        self.runners.each_ref().map(|runner| runner.least)
    }

    /// The other calls on the line: the name and the least time.
    pub fn others(&self) -> impl Iterator<Item = (&str, f64)> {
        self.beside.iter().map(|beside| (beside.name, beside.runner.least))
    }
}

pub fn run(races: &mut [Race]) {
    for _ in 0..PASSES {
        for race in races.iter_mut() {
            (0..ROUNDS).for_each(|_| race.round());
        }
    }
}
