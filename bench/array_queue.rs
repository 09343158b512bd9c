// The same through the queue of the Rust crate crossbeam-queue, and its back-off, which never sleeps.
use crossbeam_queue::ArrayQueue;
use crossbeam_utils::Backoff;
use std::sync::Arc;
use std::thread;
use std::time::Instant;

const NUMBERS: u64 = 1_000_000;

fn main() {
    for capacity in [1usize, 64, 1024] {
        let near = Arc::new(ArrayQueue::<Option<u64>>::new(capacity));
        let far = near.clone();
        let start = Instant::now();
        let sender = thread::spawn(move || {
            for number in (0..NUMBERS).map(Some).chain([None]) {
                let backoff = Backoff::new();
                while near.push(number).is_err() {
                    backoff.snooze();
                }
            }
        });
        let mut came = 0;
        let backoff = Backoff::new();
        loop {
            match far.pop() {
                Some(Some(number)) => {
                    backoff.reset();
                    if number == came {
                        came += 1;
                    }
                }
                Some(None) => break,
                None => backoff.snooze(),
            }
        }
        sender.join().unwrap();
        let micros = start.elapsed().as_micros().max(1) as u64;
        println!("crossbeam's queue of {capacity}: {came} numbers in order, {} a second", came * 1_000_000 / micros);
    }
}
