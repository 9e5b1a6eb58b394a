//! Numbers through a bounded channel of Rust's std, from one thread to another: `std_channel ITEMS ROOM`.
use std::sync::mpsc::sync_channel;
use std::thread;
use std::time::Instant;

fn main() {
    let mut words = std::env::args().skip(1);
    let mut number = || words.next().and_then(|word| word.parse::<usize>().ok()).unwrap_or(0);
    let (items, room) = (number(), number());

    let start = Instant::now();
    let numbers: Vec<u64> = (0..items as u64).collect();
    let (tx, rx) = sync_channel(room);
    let mut taken = Vec::with_capacity(items);
    thread::scope(|scope| {
        scope.spawn(|| {
            for number in &numbers {
                tx.send(*number).expect("the receiver waits");
            }
        });
        for _ in 0..items {
            taken.push(rx.recv().expect("the sender sends"));
        }
    });
    let time = start.elapsed().as_nanos();
    assert_eq!(taken, numbers);
    println!("{} items in {time} ns", taken.len());
}
