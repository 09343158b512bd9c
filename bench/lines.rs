// Numbers through a bounded channel of Rust's std between two threads, as `line_bench items` sends them through a line.
use std::sync::mpsc::sync_channel;
use std::thread;
use std::time::Instant;

const NUMBERS: u64 = 1_000_000;

fn main() {
    for capacity in [1usize, 64, 1024] {
        let (tx, rx) = sync_channel::<Option<u64>>(capacity);
        let start = Instant::now();
        let sender = thread::spawn(move || {
            for number in 0..NUMBERS {
                tx.send(Some(number)).unwrap();
            }
            tx.send(None).unwrap();
        });
        let mut came = 0;
        while let Ok(Some(number)) = rx.recv() {
            if number == came {
                came += 1;
            }
        }
        sender.join().unwrap();
        let micros = start.elapsed().as_micros().max(1) as u64;
        println!("Rust's channel of {capacity}: {came} numbers in order, {} a second", came * 1_000_000 / micros);
    }
}
