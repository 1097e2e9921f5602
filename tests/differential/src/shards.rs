//! A part's work in shards, each with random numbers of its own, so that no count depends on the number of threads.

use crate::seen::Seen;
use chance::Chance;
use std::sync::atomic::{AtomicUsize, Ordering};
use std::sync::Mutex;
use std::thread;

/// How many shards a part has in a run of the usual length.
const SHARDS: usize = 8;

pub struct Plan {
    pub seed: u64,
    /// How many times longer than usual.
    pub times: usize,
}

impl Plan {
    pub fn shards(&self) -> usize {
        SHARDS * self.times
    }

    /// The random numbers of one shard of a part.
    fn chance(&self, part: &str, shard: usize) -> Chance {
        let bytes = part.bytes().chain((shard as u64).to_le_bytes());
        bytes.fold(Chance::new(self.seed), |mut chance, byte| {
            Chance::new(chance.next() ^ u64::from(byte))
        })
    }

    /// Runs each shard once, on all the processors, and adds up what they have seen in the order of the shards.
    pub fn run(&self, part: &str, work: impl Fn(usize, &mut Chance, &mut Seen) + Sync) -> Seen {
        let next = AtomicUsize::new(0);
        let done: Mutex<Vec<(usize, Seen)>> = Mutex::default();
        let take_shards = || loop {
            let shard = next.fetch_add(1, Ordering::Relaxed);
            if shard >= self.shards() {
                return;
            }
            let mut seen = Seen::default();
            work(shard, &mut self.chance(part, shard), &mut seen);
            done.lock().expect("no shard has failed").push((shard, seen));
        };
        thread::scope(|scope| {
            for _ in 0..thread::available_parallelism().map_or(1, usize::from) {
                scope.spawn(take_shards);
            }
        });
        let mut done = done.into_inner().expect("no shard has failed");
        done.sort_by_key(|(shard, _)| *shard);
        let mut sum = Seen::default();
        for (_, seen) in done {
            sum.add(seen);
        }
        sum
    }
}
