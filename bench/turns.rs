// The same work as crates/gate_bench under a std Mutex: turns.rs THREADS TURNS.
// rustc -O -o /tmp/turns bench/turns.rs
use std::sync::Mutex;
use std::time::Instant;

#[derive(Clone, Copy)]
struct Tick {
    by: u8,
    no: u32,
}

#[derive(Default)]
struct Counter {
    ticks: Vec<Tick>,
    pending: Option<Tick>,
    faults: u64,
    calls: u64,
    period: u64,
}

impl Counter {
    fn newest(&self, by: u8) -> u32 {
        self.ticks.iter().rev().find(|tick| tick.by == by).map_or(0, |tick| tick.no)
    }

    fn count_for(&mut self, by: u8) -> u64 {
        if self.ticks.try_reserve(2).is_err() {
            return 0;
        }
        if let Some(tick) = self.pending.take() {
            self.calls = self.calls.wrapping_add(1);
            if self.calls % 2 == 0 {
                self.ticks.push(tick);
            }
        }
        let tick = Tick { by, no: self.newest(by).wrapping_add(1) };
        self.calls = self.calls.wrapping_add(1);
        if self.period > 0 && self.calls % self.period == 0 {
            self.faults = self.faults.saturating_add(1);
            self.pending = Some(tick);
            return 1;
        }
        self.ticks.push(tick);
        0
    }
}

fn main() {
    let numbers: Vec<u32> = std::env::args().skip(1).map(|word| word.parse().unwrap()).collect();
    let (threads, turns) = (numbers[0], numbers[1]);
    let start = Instant::now();
    let counter = Mutex::new(Counter::default());
    std::thread::scope(|scope| {
        for by in 0..threads {
            let counter = &counter;
            scope.spawn(move || {
                for _ in 0..turns {
                    counter.lock().unwrap().count_for(by as u8);
                }
            });
        }
    });
    let took = start.elapsed().as_micros();
    let counted = counter.into_inner().unwrap().ticks.len();
    println!("{threads} threads, {turns} turns each: {counted} counts in {took} us");
}
