//! The peer of the handles' queue in plain Rust: THREADS senders push COUNT items in all through a bounded channel of SIZE, trying
//! again where it is full, while one taker receives; each item owns memory, and is kept by sender and taker. At the end each
//! sender's items must have come whole and in order. `tools/sends.py` times it.
use std::sync::mpsc::{sync_channel, TrySendError};
use std::time::Instant;

const THREADS: usize = 4;
const COUNT: usize = 100_000;
const SIZE: usize = 64;

fn main() {
    let start = Instant::now();
    let (send, take) = sync_channel::<(usize, Vec<u8>)>(SIZE);
    let senders: Vec<_> = (0..THREADS)
        .map(|number| {
            let send = send.clone();
            std::thread::spawn(move || {
                let mut sent = Vec::new();
                for i in 0..COUNT / THREADS {
                    let item = (i as u32).to_le_bytes().to_vec();
                    sent.push(item.clone());
                    let mut next = (number, item);
                    while let Err(TrySendError::Full(back)) = send.try_send(next) {
                        next = back;
                        std::hint::spin_loop();
                    }
                }
                sent
            })
        })
        .collect();
    drop(send);
    let mut given = vec![Vec::new(); THREADS];
    while let Ok((number, item)) = take.recv() {
        given[number].push(item);
    }
    for (number, sender) in senders.into_iter().enumerate() {
        assert_eq!(sender.join().unwrap(), given[number]);
    }
    let took = start.elapsed();
    println!(
        "{COUNT} sends by {THREADS} threads through {SIZE}: {:.1} ms, {:.0} a second",
        took.as_secs_f64() * 1e3,
        COUNT as f64 / took.as_secs_f64()
    );
}
